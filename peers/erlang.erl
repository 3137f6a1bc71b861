%% Erlang's public_key, by der_decode and der_encode of its types. (run.py says what a driver answers)
-mode(compile).

-define(ABOUT, "{\"name\": \"Erlang's public_key\", \"version\": \"~s, OTP ~s\", \"call\": \"der_decode, der_encode\", "
    "\"kinds\": [\"key\", \"ec\", \"request\", \"public\", \"encrypted\"]}~n").

type("key") -> 'PrivateKeyInfo';
type("ec") -> 'ECPrivateKey';
type("request") -> 'CertificationRequest';
type("public") -> 'SubjectPublicKeyInfo';
type("encrypted") -> 'EncryptedPrivateKeyInfo'.

%% The type that writes what was read: what is read as a PrivateKeyInfo may be a later version of it.
written_by('PrivateKeyInfo', Key) when element(1, Key) =:= 'OneAsymmetricKey'; element(2, Key) =:= 2 ->
    'OneAsymmetricKey';
written_by(Type, _) ->
    Type.

%% What it answers of a document; what it reads and can't write is taken.
answer(Type, Document) ->
    try public_key:der_decode(Type, Document) of
        Found ->
            try
                ["+" | string:lowercase(binary:encode_hex(public_key:der_encode(written_by(Type, Found), Found)))]
            catch
                _:_ -> "+"
            end
    catch
        _:_ -> "-"
    end.

answer_lines(eof) ->
    ok;
answer_lines(Line) ->
    [Kind | Hex] = string:lexemes(Line, " -\n"),
    io:format("~s~n", [answer(type(Kind), binary:decode_hex(iolist_to_binary(Hex)))]),
    answer_lines(io:get_line("")).

main(_) ->
    ok = application:load(public_key),
    {ok, Version} = application:get_key(public_key, vsn),
    io:format(?ABOUT, [Version, erlang:system_info(otp_release)]),
    answer_lines(io:get_line("")).
