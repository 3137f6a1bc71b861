#!/bin/sh
# small_programs.sh mkcert | cfssl | easy-rsa: the forms that users of these have.
set -e
mkcert_makes() {
    export CAROOT="$PWD/root"
    mkdir -p "$CAROOT"
    mkcert -key-file private-rsa.pem -cert-file public-rsa.pem a.example.org
    mkcert -ecdsa -key-file private-ec.pem -cert-file public-ec.pem a.example.org
    mkcert -pkcs12 -p12-file store a.example.org
    # (its password is always changeit, and that of all other files here secret)
    openssl pkcs12 -legacy -in store -passin pass:changeit -nodes -out both
    openssl pkcs12 -legacy -export -in both -passout pass:secret -out private-store.p12
}
cfssl_makes() {
    for key in 'rsa","size":2048' 'ecdsa","size":256' 'ecdsa","size":384' 'ecdsa","size":521'; do
        number=$((number + 1))
        echo "{\"CN\":\"a\",\"hosts\":[\"a.example.org\"],\"key\":{\"algo\":\"$key}}" > asked
        cfssl genkey asked > "request-$number.json"
        jq -r .csr "request-$number.json" > "request-$number.pem"
        jq -r .key "request-$number.json" > "private-$number.pem"
        cp "request-$number.json" "private-$number.json"
    done
}
easy_rsa_makes() {
    for algorithm in rsa ec ed; do
        export EASYRSA_ALGO=$algorithm EASYRSA_BATCH=1 EASYRSA_PKI="$PWD/pki-$algorithm"
        [ $algorithm != ed ] || export EASYRSA_CURVE=ed25519
        /usr/share/easy-rsa/easyrsa init-pki
        /usr/share/easy-rsa/easyrsa gen-req server nopass
        cp "$EASYRSA_PKI/reqs/server.req" "request-$algorithm.pem"
        cp "$EASYRSA_PKI/private/server.key" "private-$algorithm.pem"
    done
}
case $1 in
mkcert) mkcert_makes ;;
cfssl) cfssl_makes ;;
easy-rsa) easy_rsa_makes ;;
esac
