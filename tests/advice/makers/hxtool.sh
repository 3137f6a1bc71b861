#!/bin/sh
# The forms that users of Heimdal's hxtool have.
set -e
openssl genrsa -traditional -out key.pem 2048
for number in 1 2; do
    hxtool request-create --subject=CN=www.example.org,DC=example,DC=org --key=FILE:key.pem "request-$number.der"
    hxtool request-create --subject=CN=www.example.org --dnsname=www.example.org --email=a@example.org \
        --key=FILE:key.pem "request-$number-san.der"
done
