#!/bin/sh
# The forms that users of strongSwan's pki have.
set -e
for type in rsa:2048 ecdsa:256 ecdsa:384 ecdsa:521 ed25519 ed448; do
    number=$((number + 1))
    name=$number-${type%:*}
    size=${type#*:}
    [ "$size" != "$type" ] && size="--size $size" || size=
    # shellcheck disable=SC2086 # (an option and its value)
    pki --gen --type "${type%:*}" $size > "private-$name.der"
    # shellcheck disable=SC2086
    pki --gen --type "${type%:*}" $size --outform pem > "private-$name.pem"
    pki --pub --type priv --in "private-$name.der" > "public-$name.der"
    pki --pub --type priv --in "private-$name.pem" --outform pem > "public-$name.pem"
    for form in der pem; do
        req() { pki --req --type priv --in "private-$name.$form" --dn 'C=CH, O=Example, CN=a.example.org' "$@"; }
        req --outform $form > "request-$name.$form"
        req --san a.example.org --san b.example.org --outform $form > "request-$name-san.$form"
        req --password secret --outform $form > "request-$name-password.$form"
        req --san a.example.org --password secret --outform $form > "request-$name-both.$form"
    done
done
