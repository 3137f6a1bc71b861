<?php
// phpseclib.php phpseclib3 | phpseclib2 | php: the forms that users of phpseclib and of PHP's own openssl have.

function keep($name, $octets)
{
    file_put_contents($name, $octets);
}

function octets_of($pem)
{
    return base64_decode(preg_replace('/-----[^-]*-----|\s/', '', $pem));
}

function request3($name, $key)
{
    $made = new \phpseclib3\File\X509();
    $made->setPrivateKey($key);
    $made->setDNProp('id-at-commonName', 'www.example.org');
    $made->loadCSR($made->saveCSR($made->signCSR()));
    $made->setPrivateKey($key);
    $names = [['dNSName' => 'www.example.org']];
    keep("request-$name-plain.pem", $made->saveCSR($made->signCSR()));
    $made->setExtension('id-ce-subjectAltName', $names);
    $pem = $made->saveCSR($made->signCSR());
    keep("request-$name.pem", $pem);
    keep("request-$name.der", octets_of($pem));
}

function forms3($name, $key, $forms)
{
    foreach ($forms as $form) {
        try {
            $text = $key->toString($form);
        } catch (\Exception $none) {
            continue;
        }
        keep("private-$name-$form.pem", $text);
        if ($form == 'PKCS8' || $form == 'PKCS1') {
            keep("private-$name-$form.der", octets_of($text));
            keep("encrypted-$name-$form.pem", $key->withPassword('secret')->toString($form));
        }
        try {
            keep("public-$name-$form.pem", $key->getPublicKey()->toString($form));
        } catch (\Exception $none) {
            continue;
        }
    }
}

function phpseclib3()
{
    require_once 'phpseclib3/autoload.php';
    $forms = ['PKCS8', 'PKCS1', 'OpenSSH', 'PuTTY', 'XML', 'JWK'];
    $rsa = \phpseclib3\Crypt\RSA::createKey(2048)->withPadding(\phpseclib3\Crypt\RSA::SIGNATURE_PKCS1);
    forms3('rsa', $rsa, $forms);
    request3('rsa', $rsa);
    foreach (['nistp256', 'nistp384', 'nistp521', 'secp256k1', 'brainpoolP256r1', 'Ed25519'] as $curve) {
        foreach (range(1, $curve == 'nistp521' ? 6 : 1) as $number) {
            $key = \phpseclib3\Crypt\EC::createKey($curve);
            forms3("$curve-$number", $key, $number == 1 ? $forms : ['PKCS8', 'PKCS1']);
            if ($number == 1) {
                request3($curve, $key);
            }
        }
    }
    \phpseclib3\Crypt\EC\Formats\Keys\PKCS8::useSpecifiedCurve();
    forms3('explicit', \phpseclib3\Crypt\EC::createKey('nistp256'), ['PKCS8']);
    \phpseclib3\Crypt\EC\Formats\Keys\PKCS1::useSpecifiedCurve();
    forms3('explicit', \phpseclib3\Crypt\EC::createKey('nistp256'), ['PKCS1']);
}

function phpseclib2()
{
    require_once 'phpseclib/autoload.php';
    $rsa = new \phpseclib\Crypt\RSA();
    extract($rsa->createKey(2048));
    $rsa->loadKey($privatekey);
    foreach (['PKCS1' => 0, 'PuTTY' => 1, 'XML' => 2, 'PKCS8' => 8, 'OpenSSH' => 9] as $form => $number) {
        keep("private-rsa-$form.pem", $rsa->getPrivateKey($number));
    }
    foreach (['PKCS1' => 7, 'PKCS8' => 8, 'OpenSSH' => 6] as $form => $number) {
        keep("public-rsa-$form.pem", $rsa->getPublicKey($number));
    }
    $made = new \phpseclib\File\X509();
    $made->setPrivateKey($rsa);
    $made->setDNProp('id-at-commonName', 'www.example.org');
    $pem = $made->saveCSR($made->signCSR());
    keep('request-rsa.pem', $pem);
    keep('request-rsa.der', octets_of($pem));
}

function php()
{
    $settings = ['rsa' => ['private_key_bits' => 2048, 'private_key_type' => OPENSSL_KEYTYPE_RSA],
        'dsa' => ['private_key_bits' => 1024, 'private_key_type' => OPENSSL_KEYTYPE_DSA]];
    foreach (['prime256v1', 'secp384r1', 'secp521r1'] as $curve) {
        $settings[$curve] = ['curve_name' => $curve, 'private_key_type' => OPENSSL_KEYTYPE_EC];
    }
    foreach ($settings as $name => $setting) {
        $key = openssl_pkey_new($setting);
        openssl_pkey_export($key, $private);
        openssl_pkey_export($key, $encrypted, 'secret');
        $request = openssl_csr_new(['commonName' => 'www.example.org'], $key, ['digest_alg' => 'sha256']);
        openssl_csr_export($request, $text);
        $certificate = openssl_csr_sign($request, null, $key, 9);
        openssl_pkcs12_export($certificate, $store, $key, 'secret');
        keep("private-$name.pem", $private);
        keep("encrypted-$name.pem", $encrypted);
        keep("public-$name.pem", openssl_pkey_get_details($key)['key']);
        keep("request-$name.pem", $text);
        keep("private-$name.p12", $store);
    }
}

$argv[1]();
