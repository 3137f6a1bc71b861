-- luaossl.lua: the forms that users of luaossl have.
local pkey = require "openssl.pkey"
local csr = require "openssl.x509.csr"
local name = require "openssl.x509.name"

local function keep(path, octets)
    local file = assert(io.open(path, "wb"))
    file:write(octets)
    file:close()
end

for title, options in pairs({rsa = {type = "RSA", bits = 2048}, p256 = {type = "EC", curve = "prime256v1"},
                             p521 = {type = "EC", curve = "secp521r1"}}) do
    local key = pkey.new(options)
    keep("private-" .. title .. ".pem", key:toPEM("private"))
    keep("public-" .. title .. ".pem", key:toPEM("public"))
    for _, version in ipairs({0, 1}) do
        local asked = csr.new()
        if version > 0 then asked:setVersion(version) end
        asked:setSubject(name.new():add("CN", "www.example.org"))
        asked:setPublicKey(key)
        asked:sign(key)
        keep("request-" .. title .. "-" .. version .. ".pem", asked:toPEM())
        keep("request-" .. title .. "-" .. version .. ".der", asked:tostring("DER"))
    end
end
