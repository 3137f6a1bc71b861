package pkder;

import java.nio.charset.StandardCharsets;

/** What a call of the library answers: pkder_outcome. */
final class Outcome {
    static final int ACCEPTED = 0;
    static final int FAULT = 1;
    static final int NO_MEMORY = 3;
    static final int BAD_CALL = 4;
    static final int NOT_DER = 5;
    static final int REPORTED = 6;
    static final int ANOTHER = 8;

    // The places of its numbers, as native/pkder_jni.c hands them over.
    private static final int STATUS_PLACE = 0;
    private static final int REASON_PLACE = 1;
    private static final int INSIDE_REASON_PLACE = 2;
    private static final int WHICH_PLACE = 3;
    private static final int AT_PLACE = 4;
    private static final int INSIDE_AT_PLACE = 5;

    /** What a native call fills. */
    final long[] numbers = new long[6];

    int status() {
        return (int) numbers[STATUS_PLACE];
    }

    boolean hasFault() {
        return numbers[REASON_PLACE] != 0;
    }

    /** Of a sound document: whether it is in DER. In a report a place of 0 says so, since no document differs there. */
    Verdict verdict() {
        boolean isDer = status() == ACCEPTED || (status() == REPORTED && numbers[AT_PLACE] == 0);
        return isDer ? Verdict.DER : Verdict.differsAt(numbers[AT_PLACE]);
    }

    Fault fault() {
        boolean isInside = numbers[INSIDE_REASON_PLACE] != 0;
        Fault inside = isInside ? fault(numbers[INSIDE_AT_PLACE], numbers[INSIDE_REASON_PLACE], null) : null;
        return fault(numbers[AT_PLACE], numbers[REASON_PLACE], inside);
    }

    private Fault fault(long at, long reason, Fault inside) {
        String name = new String(Native.reasonName((int) reason), StandardCharsets.US_ASCII);
        return new Fault((int) numbers[WHICH_PLACE], at, Reason.of((int) reason), name, inside);
    }

    /** What is thrown for an outcome that is no answer: the fault, or what says nothing of the document. */
    FaultException refusal() {
        if (status() == FAULT) {
            return new FaultException(fault());
        }
        throw failure();
    }

    /** What is thrown for an outcome that says nothing of the document. */
    RuntimeException failure() {
        switch (status()) {
            case NO_MEMORY:
                throw new OutOfMemoryError("libpkder ran out of memory");
            case BAD_CALL:
                return new IllegalArgumentException("no such kind, part or limits");
            default:
                // (a later library's: whatever it means, the document isn't accepted)
                return new IllegalStateException("libpkder answers the status " + status());
        }
    }
}
