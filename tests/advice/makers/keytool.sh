#!/bin/sh
# The forms that users of Java's keytool have.
set -e
pass='-storepass secret -noprompt'
make() {
    # shellcheck disable=SC2086 # (options)
    keytool -genkeypair -keystore "$1" -alias "$2" -storetype "$3" -keyalg "$4" $5 $pass -keypass secret -validity 9 \
        -dname 'CN=www.example.org, O=Example, C=DE' 2> log
}
for key in RSA:2048 EC:secp256r1 EC:secp384r1 EC:secp521r1 Ed25519 Ed448 DSA:2048; do
    case $key in
    EC:*) size="-groupname ${key#*:}" ;;
    *:*) size="-keysize ${key#*:}" ;;
    *) size= ;;
    esac
    name=$(echo "$key" | tr : -)
    for type in PKCS12 JKS JCEKS; do make "private-$name.$type" "$name" $type "${key%:*}" "$size"; done
    store() {
        # shellcheck disable=SC2086
        keytool "$@" -keystore "private-$name.PKCS12" -alias "$name" $pass 2> log
    }
    store -certreq -file "request-$name.pem"
    store -certreq -ext san=dns:www.example.org,ip:192.0.2.1 -ext ku:c=digitalSignature -file "request-$name-san.pem"
    store -exportcert -file "public-$name.cer"
    store -exportcert -rfc -file "public-$name.crt"
done
for type in PKCS12 JKS; do
    make "private-several.$type" first $type EC '-groupname secp256r1'
    make "private-several.$type" second $type RSA '-keysize 2048'
done
