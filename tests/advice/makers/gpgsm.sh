#!/bin/sh
# The forms that users of GnuPG's gpgsm have. (That of Debian 12 makes keys of RSA alone.)
set -e
GNUPGHOME=$(mktemp -d)
export GNUPGHOME
trap 'gpgconf --kill all; rm -rf "$GNUPGHOME"' EXIT
echo allow-loopback-pinentry > "$GNUPGHOME/gpg-agent.conf"
echo secret > word
of_key() { gpgsm --batch --yes --pinentry-mode loopback --passphrase-fd 9 "$@" 9< word; }
for size in 2048 3072; do
    printf 'Key-Type: RSA\nKey-Length: %s\nName-DN: CN=rsa-%s,O=Example\n' $size $size > asked
    printf 'Name-Email: a@example.org\nName-DNS: www.example.org\n' >> asked
    of_key --generate-key asked > "request-$size.der"
    of_key --armor --generate-key asked > "request-$size.pem"
    printf 'Serial: random\nNot-After: 2039-01-01\n' >> asked
    of_key --generate-key asked > certificate
    gpgsm --import certificate
    user="CN=rsa-$size,O=Example"
    of_key --export-secret-key-raw "$user" > "private-$size-raw.der"
    of_key --export-secret-key-p8 "$user" > "private-$size.der"
    of_key --export-secret-key-p12 "$user" > "private-$size.p12"
    of_key --armor --export-secret-key-raw "$user" > "private-$size-raw.pem"
    of_key --armor --export-secret-key-p8 "$user" > "private-$size.pem"
    of_key --armor --export-secret-key-p12 "$user" > "private-$size-p12.pem"
    gpgsm --export "$user" > "public-$size.der"
    gpgsm --armor --export "$user" > "public-$size.pem"
done
