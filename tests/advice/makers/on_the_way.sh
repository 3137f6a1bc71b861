#!/bin/sh
# What becomes of a request and of a key as they are copied, mailed, pasted and packed.
set -e
openssl genpkey -algorithm EC -pkeyopt ec_paramgen_curve:P-256 -out private-key.pem
openssl pkey -in private-key.pem -outform DER -out private-sec1.der
openssl req -new -key private-key.pem -subj /CN=www.example.org -out request-whole.pem
openssl req -in request-whole.pem -outform DER -out request-whole.der

# as text
openssl base64 -in request-whole.der -out request-base64.txt
openssl base64 -A -in request-whole.der | tr '+/' '-_' | tr -d = > request-base64url.txt
xxd -p request-whole.der > request-hexadecimal.txt
xxd -p -u request-whole.der | sed 's/../&:/g; s/:$//' > request-hexadecimal-colons.txt
xxd request-whole.der > request-dump.txt
printf '{"csr":"%s"}\n' "$(cat request-base64url.txt)" > request-acme.json
jq -n --rawfile it request-whole.pem '{csr: $it}' > request-pem.json
jq -n --arg it "$(base64 -w 0 request-whole.pem)" '{kind: "CertificateSigningRequest", spec: {request: $it}}' \
    > request-kubernetes.json
base64 request-whole.pem > request-base64-of-pem.txt
iconv -f UTF-8 -t UTF-16 request-whole.pem > request-utf16.pem
iconv -f UTF-8 -t UTF-16 private-key.pem > private-utf16.pem
sed 's/$/\r/' request-whole.pem > request-crlf.pem
(printf '\357\273\277'; cat request-whole.pem) > request-mark.pem
(echo 'Dear all,'; echo; sed 's/^/  /' request-whole.pem; echo 'Yours') > request-mail.pem
openssl req -in request-whole.pem -text -out request-text.pem

# harmed
iconv -f LATIN1 -t UTF-8 request-whole.der > request-recoded.der
sed 's/$/\r/' request-whole.der > request-text-mode.der
head -c 200 request-whole.der > request-cut.der
head -4 request-whole.pem > request-cut.pem
sed 3d request-whole.pem > request-line-lost.pem
sed 3p request-whole.pem > request-line-twice.pem
: > request-empty.der
(cat request-whole.der; echo) > request-line-feed.der
(cat request-whole.der; printf '\r\n') > request-end-of-line.der
(cat request-whole.der; head -c 64 /dev/zero) > request-zeros.der
cat request-whole.der request-whole.der > request-twice.der
cat request-whole.pem request-whole.pem > request-twice.pem

# something else
cp private-key.pem request-key.pem
cat private-key.pem request-whole.pem > request-with-key.pem
printf '<!DOCTYPE html>\n<html><body>Sign in</body></html>\n' > request-page.pem
gzip -c request-whole.pem > request-gzip.pem
