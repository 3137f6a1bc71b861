#!/bin/sh
# The forms that users of GnuTLS' certtool have.
set -e
secret='--password=secret'
private() {
    name=$1
    shift
    certtool --generate-privkey "$@" --outfile "private-$name.pem"
    certtool --generate-privkey "$@" --outder --outfile "private-$name.der"
    certtool --generate-privkey "$@" --pkcs8 --password= --outfile "private-$name-p8.pem"
    certtool --generate-privkey "$@" --pkcs8 --password= --outder --outfile "private-$name-p8.der"
}
generate() {
    private "$@"
    certtool --to-p8 --load-privkey "private-$name.pem" --password= --outfile "private-$name-to-p8.pem"
    certtool --to-p8 --load-privkey "private-$name.pem" $secret --outfile "encrypted-$name.pem"
    certtool --to-p8 --load-privkey "private-$name.pem" $secret --outder --outfile "encrypted-$name.der"
    certtool --load-privkey "private-$name.pem" --pubkey-info --outfile "public-$name.pem"
    certtool --load-privkey "private-$name.pem" --pubkey-info --outder --outfile "public-$name.der"
    printf 'cn = "www.example.org"\ndns_name = "www.example.org"\nchallenge_password = secret\n' > template
    printf 'signing_key\ntls_www_server\nip_address = "192.0.2.1"\n' >> template
    certtool --generate-request --load-privkey "private-$name.pem" --template template --outfile "request-$name.pem"
    certtool --generate-request --load-privkey "private-$name.pem" --template template --outder \
        --outfile "request-$name.der"
}
generate rsa --key-type rsa --bits 2048
generate rsa-pss --key-type rsa-pss --bits 2048
for curve in secp256r1 secp384r1 secp521r1; do
    generate "$curve-1" --key-type ecdsa --curve $curve
    # (their lengths vary)
    for number in 2 3 4 5; do private "$curve-$number" --key-type ecdsa --curve $curve; done
done
generate ed25519-1 --key-type ed25519
generate ed448-1 --key-type ed448
certtool --generate-privkey --key-type dsa --bits 2048 --outfile private-dsa.pem
certtool --generate-privkey --key-type x25519 --outfile private-x25519.pem || rm -f private-x25519.pem
for cipher in aes-256 3des-pkcs12 arcfour rc2-40; do
    certtool --to-p8 --load-privkey private-rsa.pem $secret --pkcs-cipher $cipher --outfile encrypted-$cipher.pem
done
certtool --load-privkey private-rsa.pem --to-rsa --outfile private-to-rsa.pem
certtool --generate-self-signed --load-privkey private-rsa.pem --template template --outfile certificate.pem
cp certificate.pem public-certificate.pem
certtool --load-privkey private-rsa.pem --load-certificate certificate.pem --to-p12 --p12-name a $secret \
    --outder --outfile private-store.p12
