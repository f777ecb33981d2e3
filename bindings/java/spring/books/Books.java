package books;

import java.util.List;

/** A service with slow methods. */
public interface Books {
    /** The title of a book, or null if there is none. */
    String title(int id);

    /** Gives a book another title. */
    String rename(int id, String title);

    /** Forgets what is known of a book. */
    void forget(int id);

    /** What a book is about. It takes long to find out, so callers at the same time share one computation. */
    String summary(int id);

    /** Titles of two authors. */
    List<String> titlesOf(String one, String other);

    /** Who wrote a page. */
    String author(String book, int page);

    /** That somebody else has written a page since. */
    void authorChanged(String book, int page);

    /** Keeps a reader's note of a book. */
    void note(String book, String note);

    /** The note of a book, or "none". */
    String noteOf(String book);
}
