# cryptx.pl: the forms that users of CryptX for Perl have.
use strict;
use warnings;
use Crypt::PK::DSA;
use Crypt::PK::ECC;
use Crypt::PK::Ed25519;
use Crypt::PK::RSA;
use Crypt::PK::X25519;

sub keep {
    my ($name, $octets) = @_;
    open(my $file, '>:raw', $name) or die;
    print {$file} $octets;
    close($file);
}

sub of_rsa {
    my $key = Crypt::PK::RSA->new();
    $key->generate_key(256, 65537);
    keep("private-rsa.der", $key->export_key_der('private'));
    keep("private-rsa.pem", $key->export_key_pem('private'));
    keep("encrypted-rsa.pem", $key->export_key_pem('private', 'secret'));
    keep("public-rsa.der", $key->export_key_der('public'));
    keep("public-rsa.pem", $key->export_key_pem('public'));
    keep("public-rsa-x509.pem", $key->export_key_pem('public_x509'));
    keep("private-rsa.json", $key->export_key_jwk('private'));
    keep("public-rsa.json", $key->export_key_jwk('public'));
}

sub of_dsa {
    my $key = Crypt::PK::DSA->new();
    $key->generate_key(20, 128);
    for my $form (qw(private public)) {
        keep("$form-dsa.der", $key->export_key_der($form));
        keep("$form-dsa.pem", $key->export_key_pem($form));
    }
    keep("public-dsa-x509.pem", $key->export_key_pem('public_x509'));
}

sub of_ecc {
    for my $curve (qw(secp224r1 secp256r1 secp384r1 secp521r1 secp256k1 brainpoolp256r1)) {
        # (the lengths of short ones vary)
        for my $number (1 .. ($curve =~ /secp521|secp256r/ ? 6 : 1)) {
            my $key = Crypt::PK::ECC->new();
            $key->generate_key($curve);
            my @forms = $number > 1 ? qw(private_short) : qw(private private_short private_compressed);
            for my $form (@forms) {
                keep("private-$curve-$number-$form.der", $key->export_key_der($form));
                keep("private-$curve-$number-$form.pem", $key->export_key_pem($form));
            }
            next if $number > 1;
            for my $form (qw(public public_short public_compressed)) {
                keep("public-$curve-$number-$form.der", $key->export_key_der($form));
                keep("public-$curve-$number-$form.pem", $key->export_key_pem($form));
            }
            keep("encrypted-$curve.pem", $key->export_key_pem('private_short', 'secret'));
        }
    }
}

sub of_curves {
    for my $type (qw(Ed25519 X25519)) {
        my $key = "Crypt::PK::$type"->new();
        $key->generate_key();
        for my $form (qw(private public)) {
            keep("$form-$type.der", $key->export_key_der($form));
            keep("$form-$type.pem", $key->export_key_pem($form));
            keep("$form-$type.json", $key->export_key_jwk($form));
        }
        keep("encrypted-$type.pem", $key->export_key_pem('private', 'secret'));
    }
}

of_rsa();
of_dsa();
of_ecc();
of_curves();
