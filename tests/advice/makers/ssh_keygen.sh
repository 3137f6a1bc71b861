#!/bin/sh
# The forms that users of ssh-keygen have.
set -e
for type in rsa:2048 dsa:1024 ecdsa:256 ecdsa:384 ecdsa:521 ed25519; do
    size=${type#*:}
    [ "$size" != "$type" ] && size="-b $size" || size=
    for form in RFC4716 PEM PKCS8; do
        name=$(echo "$type-$form" | tr : -)
        # shellcheck disable=SC2086 # (an option and its value)
        ssh-keygen -q -t "${type%:*}" $size -m $form -N '' -C me@example -f "private-$name"
        mv "private-$name.pub" "public-$name.pub"
        # shellcheck disable=SC2086
        ssh-keygen -q -t "${type%:*}" $size -m $form -N secret -C me@example -f "encrypted-$name"
        rm "encrypted-$name.pub"
        ssh-keygen -e -m "$form" -f "public-$name.pub" > "public-$name.txt" || rm "public-$name.txt"
    done
done
