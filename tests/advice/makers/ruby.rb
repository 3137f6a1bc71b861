# ruby.rb ruby | acme_client: the forms that users of Ruby's openssl and acme-client have.
require "openssl"

def keep(name, octets)
  File.binwrite(name, octets)
end

def keys
  found = { "rsa" => OpenSSL::PKey::RSA.new(2048), "dsa" => OpenSSL::PKey::DSA.new(1024) }
  %w[prime256v1 secp384r1 secp521r1].each do |curve|
    2.times { |number| found["#{curve}-#{number}"] = OpenSSL::PKey::EC.generate(curve) }
  end
  found
end

def request(name, key, version)
  made = OpenSSL::X509::Request.new
  made.version = version
  made.subject = OpenSSL::X509::Name.parse("/CN=www.example.org")
  made.public_key = key
  made.sign(key, OpenSSL::Digest.new("SHA256"))
  keep("request-#{name}-#{version}.pem", made.to_pem)
  keep("request-#{name}-#{version}.der", made.to_der)
end

def ruby
  keys.each do |name, key|
    keep("private-#{name}.pem", key.to_pem)
    keep("private-#{name}.der", key.to_der)
    keep("private-#{name}-p8.pem", key.private_to_pem)
    keep("private-#{name}-p8.der", key.private_to_der)
    keep("encrypted-#{name}.pem", key.private_to_pem(OpenSSL::Cipher.new("aes-256-cbc"), "secret"))
    keep("encrypted-#{name}-old.pem", key.to_pem(OpenSSL::Cipher.new("aes-256-cbc"), "secret"))
    keep("public-#{name}.pem", key.public_to_pem)
    keep("public-#{name}.der", key.public_to_der)
    [0, 2].each { |version| request(name, key, version) }
  end
end

def acme_client
  require "acme-client"
  keys.each do |name, key|
    next if name.start_with?("dsa")

    asked = Acme::Client::CertificateRequest.new(names: %w[a.example.org b.example.org], private_key: key)
    keep("request-#{name}.pem", asked.csr.to_pem)
    keep("request-#{name}.der", asked.to_der)
  end
  keep("request-default.pem", Acme::Client::CertificateRequest.new(common_name: "a.example.org").csr.to_pem)
end

send(ARGV[0])
