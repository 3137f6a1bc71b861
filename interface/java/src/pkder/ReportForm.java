package pkder;

/** How a report is written. */
public enum ReportForm {
    /** As text, with the elements that matter. */
    TEXT(0),
    /** As text, with all elements. */
    ALL(1),
    /** As one object of JSON in a line, with the elements that matter. */
    JSON(2),
    /** As one object of JSON in a line, with all elements. */
    ALL_JSON(3),
    /** As text, with the elements that matter, and with the notes for TLS servers. */
    TLS(4),
    /** As text, with all elements, and with these notes. */
    ALL_TLS(5),
    /** As one object of JSON in a line, with the elements that matter, and with these notes. */
    JSON_TLS(6),
    /** As one object of JSON in a line, with all elements, and with these notes. */
    ALL_JSON_TLS(7);

    private final int number;

    ReportForm(int number) {
        this.number = number;
    }

    /**
     * Answers the number that pkder.h has for it, which never changes.
     *
     * @return the number
     */
    public int number() {
        return number;
    }
}
