#!/usr/bin/env escript
%% erlang.escript: the forms that users of Erlang's public_key have.
-include_lib("public_key/include/public_key.hrl").

main(_) ->
    rsa(),
    [curve(Curve, Name, Number) || {Curve, Name} <- [{secp256r1, "p256"}, {secp384r1, "p384"}, {secp521r1, "p521"}],
                                   Number <- ["1", "2"]].

keep(Name, Octets) -> ok = file:write_file(Name, Octets).

write(Want, Name, Type, Value) ->
    {_, Octets, _} = Entry = public_key:pem_entry_encode(Type, Value),
    keep(Want ++ "-" ++ Name ++ ".pem", public_key:pem_encode([Entry])),
    keep(Want ++ "-" ++ Name ++ ".der", Octets).

rsa() ->
    Key = public_key:generate_key({rsa, 2048, 65537}),
    Public = #'RSAPublicKey'{modulus = Key#'RSAPrivateKey'.modulus,
                             publicExponent = Key#'RSAPrivateKey'.publicExponent},
    write("private", "rsa-pkcs1", 'RSAPrivateKey', Key),
    write("private", "rsa", 'PrivateKeyInfo', Key),
    write("public", "rsa-pkcs1", 'RSAPublicKey', Public),
    write("public", "rsa", 'SubjectPublicKeyInfo', Public),
    Locked = public_key:pem_entry_encode('RSAPrivateKey', Key, {{"AES-128-CBC", crypto:strong_rand_bytes(16)}, "secret"}),
    keep("encrypted-rsa.pem", public_key:pem_encode([Locked])).

curve(Curve, Name, Number) ->
    Key = public_key:generate_key({namedCurve, Curve}),
    Point = #'ECPoint'{point = Key#'ECPrivateKey'.publicKey},
    write("private", Name ++ "-" ++ Number, 'ECPrivateKey', Key),
    write("private", Name ++ "-" ++ Number ++ "-p8", 'PrivateKeyInfo', Key),
    write("public", Name ++ "-" ++ Number, 'SubjectPublicKeyInfo', {Point, Key#'ECPrivateKey'.parameters}).
