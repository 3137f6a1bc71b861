#!/bin/sh
# The forms that users of Botan's program have.
set -e
for type in RSA:2048 ECDSA:secp256r1 ECDSA:secp384r1 ECDSA:secp521r1 ECDSA:secp521r1 ECDSA:secp521r1 \
    ECDSA:secp256k1 ECDSA:brainpool256r1 DSA:dsa/botan/2048 DH:modp/ietf/2048 Ed25519:- Curve25519:- SM2:sm2p256v1; do
    number=$((number + 1))
    name=$number-${type%:*}
    parameters=${type#*:}
    [ "$parameters" != - ] && parameters="--params=$parameters" || parameters=
    # shellcheck disable=SC2086 # (an option, or none)
    botan keygen --algo="${type%:*}" $parameters > "private-$name.pem"
    botan pkcs8 "private-$name.pem" --der-out > "private-$name.der"
    botan pkcs8 "private-$name.pem" --pub-out > "public-$name.pem"
    botan pkcs8 "private-$name.pem" --pub-out --der-out > "public-$name.der"
    botan pkcs8 "private-$name.pem" --pass-out=secret > "encrypted-$name.pem"
    botan pkcs8 "private-$name.pem" --pass-out=secret --der-out > "encrypted-$name.der"
    case $type in DH* | Curve*) continue ;; esac
    botan gen_pkcs10 "private-$name.pem" www.example.org --country=DE --organization=Example --dns=www.example.org \
        --emsa="$([ "${type%:*}" = RSA ] && echo EMSA4 || echo EMSA1)" > "request-$name.pem" || rm "request-$name.pem"
done
