package cadwrelch.fleet;

/** Something that a {@link Fleet} stands on isn't so. The message says what, and how it is mended. */
public final class FleetException extends RuntimeException {
    private static final long serialVersionUID = 1;

    /**
     * What isn't so.
     *
     * @param message what is wrong, and how it is mended
     * @param cause what has said so; null: nothing has
     */
    public FleetException(String message, Throwable cause) {
        super(message, cause);
    }
}
