#!/bin/sh
# The forms that users of openssl have.
set -e
sizes='rsa:rsa_keygen_bits:2048'
for curve in P-224 P-256 P-384 P-521 secp256k1 brainpoolP256r1; do sizes="$sizes EC:ec_paramgen_curve:$curve"; done
for each in $sizes; do
    name=$(echo "${each##*:}" | tr '[:upper:]' '[:lower:]')
    openssl genpkey -algorithm "${each%%:*}" -pkeyopt "${each#*:}" -out "private-$name.pem"
done
for algorithm in ED25519 ED448 X25519 X448; do openssl genpkey -algorithm $algorithm -out "private-$algorithm.pem"; done
openssl genpkey -algorithm RSA-PSS -pkeyopt rsa_keygen_bits:2048 -out private-pss.pem
openssl genpkey -genparam -algorithm DSA -pkeyopt dsa_paramgen_bits:2048 -out parameters
openssl genpkey -paramfile parameters -out private-dsa.pem
openssl genpkey -algorithm DH -pkeyopt group:ffdhe2048 -out private-dh.pem
openssl genpkey -algorithm SM2 -out private-sm2.pem
for key in private-*.pem; do
    name=${key#private-}
    openssl pkcs8 -topk8 -nocrypt -in "$key" -outform DER -out "private-${name%.pem}.der"
    openssl pkey -in "$key" -outform DER -out "private-${name%.pem}-pkey.der"
    openssl pkey -in "$key" -pubout -out "public-$name"
    openssl pkey -in "$key" -pubout -outform DER -out "public-${name%.pem}.der"
    openssl pkcs8 -topk8 -in "$key" -passout pass:secret -out "encrypted-$name"
    openssl pkcs8 -topk8 -in "$key" -passout pass:secret -outform DER -out "encrypted-${name%.pem}.der"
done
for name in p-256 p-384 p-521 secp256k1; do
    openssl ec -in "private-$name.pem" -out "private-sec1-$name.pem"
    openssl ec -in "private-$name.pem" -outform DER -out "private-sec1-$name.der"
    openssl ec -in "private-$name.pem" -no_public -out "private-sec1-alone-$name.pem"
    openssl ec -in "private-$name.pem" -param_enc explicit -out "private-sec1-explicit-$name.pem"
    openssl ec -in "private-$name.pem" -param_enc explicit -outform DER -out "private-sec1-explicit-$name.der"
    openssl ec -in "private-$name.pem" -conv_form compressed -pubout -out "public-compressed-$name.pem"
    openssl ec -in "private-$name.pem" -param_enc explicit -pubout -out "public-explicit-$name.pem"
    openssl pkcs8 -topk8 -nocrypt -in "private-sec1-explicit-$name.pem" -out "private-explicit-$name.pem"
    openssl ec -in "private-$name.pem" -aes256 -passout pass:secret -out "encrypted-old-$name.pem"
    openssl ecparam -name "$(openssl ec -in "private-$name.pem" -noout -text | sed -n 's/^ASN1 OID: //p')" \
        -genkey -out "private-ecparam-$name.pem"
done
openssl ec -in private-sm2.pem -out private-sm2-old.pem
openssl dsa -in private-dsa.pem -out private-dsa-old.pem
openssl dsa -in private-dsa.pem -outform DER -out private-dsa-old.der
key=private-2048.pem
openssl rsa -in $key -traditional -out private-rsa-old.pem
openssl rsa -in $key -traditional -outform DER -out private-rsa-old.der
openssl rsa -in $key -aes128 -traditional -passout pass:secret -out encrypted-rsa-old.pem
openssl rsa -in $key -RSAPublicKey_out -out public-rsa-old.pem
openssl rsa -in $key -RSAPublicKey_out -outform DER -out public-rsa-old.der
openssl genrsa -primes 3 -out private-three-primes.pem 2048
for way in 'v2 aes-256-cbc' 'v2 des3' 'scrypt' 'v1 PBE-SHA1-3DES' 'v1 PBE-SHA1-RC4-128'; do
    # shellcheck disable=SC2086 # (an option and its value)
    openssl pkcs8 -topk8 -in $key -provider default -provider legacy -$way -passout pass:secret \
        -out "encrypted-$(echo "$way" | tr ' ' '-').pem" || rm -f "encrypted-$(echo "$way" | tr ' ' '-').pem"
done


stores() {
    openssl req -x509 -new -key $key -subj '/CN=a' -days 9 -out certificate.pem
    cp certificate.pem public-certificate.pem
    openssl x509 -in certificate.pem -outform DER -out public-certificate.der
    openssl pkcs12 -export -inkey $key -in certificate.pem -passout pass:secret -out private-store.p12
    openssl pkcs12 -export -legacy -inkey $key -in certificate.pem -passout pass:secret -out private-store-legacy.p12
    openssl spkac -key private-rsa-old.pem -out public-spkac.txt
    openssl crl2pkcs7 -nocrl -certfile certificate.pem -out public-pkcs7.pem
}
requests() {
    for name in 2048 p-256 p-384 p-521 secp256k1 ED25519 ED448 dsa pss; do
        openssl req -new -key "private-$name.pem" -subj "/C=DE/O=Example/CN=www.example.org" -out "request-$name.pem"
        openssl req -new -key "private-$name.pem" -subj "/CN=www.example.org" -outform DER -out "request-$name.der" \
            -addext "subjectAltName=DNS:www.example.org,IP:192.0.2.1" -addext 'keyUsage=critical,digitalSignature'
    done
    openssl req -new -newhdr -key $key -subj '/CN=a' -out request-newhdr.pem
    openssl req -new -key $key -subj '/CN=a' -text -out request-text.pem
    openssl req -new -key $key -subj '/CN=a' -sigopt rsa_padding_mode:pss -out request-sigopt-pss.pem
    openssl req -new -key private-ED25519.pem -utf8 -subj '/CN=Müller' -out request-utf8.pem
    openssl req -new -key private-sec1-explicit-p-256.pem -subj '/CN=a' -out request-explicit.pem
    printf '[req]\nprompt=no\ndistinguished_name=n\nattributes=a\n[n]\nCN=b\n[a]\nchallengePassword=secret\n' > config
    printf 'unstructuredName=c\n' >> config
    openssl req -new -key $key -config config -out request-challenge.pem
    printf '[req]\nprompt=no\nstring_mask=utf8only\ndistinguished_name=n\n[n]\nCN=M\374ller\n' > config
    openssl req -new -key $key -config config -out request-latin-1.pem
}
stores
requests
