package cadwrelch.jcache;

import java.util.List;
import java.util.function.Consumer;

/** A stripe without a core, whose first phase throws. */
final class BrokenDesk extends KeyedDesk {
    private final RuntimeException fault;

    BrokenDesk(RuntimeException fault) {
        super(null, new Counts(), null, false);
        this.fault = fault;
    }

    @Override
    int first(Call call, Node node, int session) {
        throw fault;
    }

    @Override
    Object hit(KeyLookup sought, Node node) {
        return null;
    }

    @Override
    boolean isCached(Node node) {
        return false;
    }

    @Override
    KeyLookup lookup(Node node) {
        throw fault;
    }

    @Override
    void forEachKey(Consumer<Node> action) {}

    @Override
    int last(Call call) {
        throw fault;
    }

    @Override
    int askForJoined(Call call) {
        throw fault;
    }

    @Override
    void noteJoined(Call call) {}

    @Override
    void noteReserved(Call call, int result) {}

    @Override
    void noteStep(Call call, int result) {}

    @Override
    List<Object> keys(boolean withAbsent) {
        return List.of();
    }

    @Override
    int verifyEntries() {
        return 0;
    }
}
