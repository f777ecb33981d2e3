package cadwrelch.fleet;

import java.time.Duration;

/**
 * Where the changes of a store are announced, whoever makes them.
 *
 * @param <K> the type of the keys
 */
public interface Announcements<K> {
    /**
     * Connects, and has subscribed when it returns: what is changed from then on is told.
     *
     * @param patience how long the engine may take for each answer
     * @return the connection, which is the caller's to close
     * @throws FleetException if something isn't as it has to be, which trying again doesn't mend
     * @throws Exception if there is no connection
     */
    Channel<K> connect(Duration patience) throws Exception;

    /**
     * A connection that listens. One thread calls its methods, but for {@link #wake} and {@link #close}.
     *
     * @param <K> the type of the keys
     */
    interface Channel<K> extends AutoCloseable {
        /**
         * Waits until something is announced, somebody wakes it, or the time is over.
         *
         * @param time at least 1 ms
         * @return what is announced, which may be nothing
         * @throws Exception if the connection is lost
         */
        Told<K> await(Duration time) throws Exception;

        /**
         * Asks the engine for an answer, which comes after all that it has announced before.
         *
         * @return what it has announced, which may be nothing
         * @throws Exception if the connection is lost, or there is no answer within the patience
         */
        Told<K> probe() throws Exception;

        /** Has a wait end early, if that is possible. Any thread may call it. */
        void wake();

        /** Closes the connection. Any thread may call it, also while another one waits, whose wait fails then. */
        @Override
        void close();
    }
}
