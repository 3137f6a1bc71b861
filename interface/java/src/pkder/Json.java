package pkder;

import java.util.List;
import java.util.Map;
import java.util.Optional;
import java.util.OptionalLong;
import java.util.function.Function;

/**
 * A value of JSON. What it has to be is asked of it, and {@link IllegalStateException} is thrown where it is another
 * one.
 */
sealed interface Json {
    /** An object. */
    record Members(Map<String, Json> members) implements Json {}

    /** A list. */
    record Items(List<Json> items) implements Json {}

    /** A string. */
    record Text(String characters) implements Json {}

    /** A number by its characters, or true, false or null. */
    record Word(String characters) implements Json {}

    /** The number of decimal digits. */
    static long number(String digits) {
        require(digits.matches("[0-9]{1,18}"));
        return Long.parseLong(digits);
    }

    static void require(boolean isSo) {
        if (!isSo) {
            throw new IllegalStateException("the report of libpkder doesn't say what is asked of it");
        }
    }

    /** The member of this key, if it is there. */
    default Optional<Json> optional(String key) {
        require(this instanceof Members);
        return Optional.ofNullable(((Members) this).members.get(key));
    }

    /** The member of this key, which has to be there. */
    default Json member(String key) {
        Optional<Json> found = optional(key);
        require(found.isPresent());
        return found.get();
    }

    default Optional<String> optionalText(String key) {
        return optional(key).map(Json::text);
    }

    default OptionalLong optionalNumber(String key) {
        return optional(key).map(it -> OptionalLong.of(it.number())).orElse(OptionalLong.empty());
    }

    /** The list that is the member of this key; an empty one where it isn't there. */
    default<T> List<T> optionalList(String key, Function<Json, T> of) {
        return optional(key).map(it -> it.list(of)).orElse(List.of());
    }

    default<T> List<T> list(Function<Json, T> of) {
        require(this instanceof Items);
        return ((Items) this).items.stream().map(of).toList();
    }

    default String text() {
        require(this instanceof Text);
        return ((Text) this).characters;
    }

    default boolean isTrue() {
        require(equals(new Word("true")) || equals(new Word("false")));
        return equals(new Word("true"));
    }

    /** A number that isn't negative, without a fraction or an exponent. */
    default long number() {
        require(this instanceof Word);
        return number(((Word) this).characters);
    }
}
