#!/bin/sh
# The forms that users of NSS' certutil and pk12util have.
set -e
# (a password costs many rounds of a hash each time)
export NSS_MAX_MP_PBE_ITERATION_COUNT=1
mkdir store
echo secret > store/word
certutil -N -d sql:store -f store/word
head -c 64 /dev/urandom > store/noise
for type in rsa:-g:2048 ec:-q:nistp256 ec:-q:nistp384 ec:-q:nistp521; do
    options=${type#*:}
    name=${type%%:*}-${options#*:}
    made() {
        certutil "$@" -d sql:store -f store/word -z store/noise -k "${type%%:*}" "${options%:*}" "${options#*:}" \
            > log 2>&1
    }
    made -R -s 'CN=www.example.org,O=Example,C=DE' -o "request-$name.der"
    made -R -s 'CN=www.example.org' -a -o "request-$name.pem" -8 www.example.org,b.example.org \
        --keyUsage digitalSignature
    made -S -s "CN=$name" -n "$name" -x -t ,, -m 1
    pk12util -o "private-$name.p12" -d sql:store -n "$name" -k store/word -W secret > log 2>&1
    certutil -L -d sql:store -n "$name" -a > "public-$name.crt"
    certutil -L -d sql:store -n "$name" -r > "public-$name.cer"
done
cp store/key4.db private-key4.db
