#!/bin/sh
# The forms that users of PuTTY's puttygen have.
set -e
: > none
echo secret > word
for type in rsa:2048 dsa:1024 ecdsa:256 ecdsa:384 ecdsa:521 ed25519 ed448; do
    # (the lengths of keys of ECDSA vary)
    for number in $(case $type in ecdsa*) echo 1 2 3 4 ;; *) echo 1 ;; esac); do
        name=$(echo "$type-$number" | tr : -)
        size=${type#*:}
        [ "$size" != "$type" ] && size="-b $size" || size=
        # shellcheck disable=SC2086 # (an option and its value)
        puttygen -q -t "${type%:*}" $size --random-device /dev/urandom --new-passphrase none -o "private-$name.ppk"
        puttygen "private-$name.ppk" -O private-openssh -o "private-$name-openssh"
        puttygen "private-$name.ppk" -O private-openssh-new -o "private-$name-openssh-new"
        puttygen "private-$name.ppk" -O public -o "public-$name-rfc4716"
        puttygen "private-$name.ppk" -O public-openssh -o "public-$name.pub"
    done
    puttygen "private-$name.ppk" --new-passphrase word -P -O private-openssh -o "encrypted-$name-openssh"
    puttygen "private-$name.ppk" --new-passphrase word -P -O private -o "encrypted-$name.ppk"
done
puttygen private-rsa-2048-1.ppk -O private-sshcom -o private-rsa-sshcom
