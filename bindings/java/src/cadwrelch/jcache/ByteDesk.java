package cadwrelch.jcache;

import java.util.List;
import java.util.function.BooleanSupplier;
import java.util.function.Consumer;
import java.util.stream.Collectors;

/**
 * A stripe of the core that has the bytes of its keys and values: what is cached is in the core alone. There is a node
 * for a key only while a call has reserved or joined it. What is kept of a value, above this, is its bytes.
 */
final class ByteDesk extends KeyedDesk {
    private final DeskOfBytes desk;
    private final ByteCopier copier;
    /** Whether anybody wants to know what was cached before a step: statistics or listeners. */
    private final BooleanSupplier needsBefore;

    /** A stripe over a desk; the recorder keeps its events, if it isn't null. */
    ByteDesk(DeskOfBytes desk, Counts counts, Recorder recorder, ByteCopier copier, BooleanSupplier needsBefore) {
        super(desk, counts, recorder, false);
        this.desk = desk;
        this.copier = copier;
        this.needsBefore = needsBefore;
    }

    @Override
    Object hit(KeyLookup sought, Node node) {
        return isHidden(sought) ? null : desk.hit(Sessions.AT_ONCE, sought.bytes);
    }

    private boolean isHidden(KeyLookup sought) {
        Node node = nodes().hiddenCount() != 0 ? nodes().find(sought) : null;
        return node != null && node.isHidden;
    }

    @Override
    boolean isCached(Node node) {
        return desk.peek(lookup(node).bytes) != null;
    }

    @Override
    KeyLookup lookup(Node node) {
        return copier.lookup(node.key);
    }

    @Override
    void forEachKey(Consumer<Node> action) {
        nodes().forEach(action);
        for (byte[] bytes : desk.keys()) {
            KeyLookup key = copier.lookup(copier.keyOf(bytes));
            if (nodes().find(key) == null) {
                action.accept(add(key.key, key.hash));
            }
        }
    }

    @Override
    int first(Call call, Node node, int session) {
        noteBefore(call);
        byte[] key = call.lookup.bytes;
        if (call.expected == null) {
            return desk.begin(session, call.op, key, (byte[]) call.stored, null);
        }
        return desk.begin(session, call.op, key, (byte[]) call.expected, (byte[]) call.stored);
    }

    /** A get's reply says what was cached, and nothing else is cached while a key is reserved. */
    private void noteBefore(Call call) {
        call.before = call.op != Native.GET && needsBefore.getAsBoolean() ? desk.peek(call.lookup.bytes) : null;
    }

    @Override
    void noteReserved(Call call, int result) {
        if (call.next == Native.PROCESS) {
            call.before = Desk.reply(result) == Native.VALUE ? desk.valueBytes() : null;
        }
    }

    @Override
    int last(Call call) {
        switch (call.next) {
            case Native.ASK_LOADER:
                return desk.commitLoad(call.ticket, call.loadAnswer, (byte[]) call.loaded);
            case Native.PROCESS:
                return desk.commitProcess(call.ticket, call.loadAnswer, (byte[]) call.loaded, call.effect,
                        (byte[]) call.set, call.writeAnswer);
            default:
                return desk.commitWrite(call.ticket, call.writeAnswer);
        }
    }

    @Override
    int askForJoined(Call call) {
        return desk.pickUp(call.session, call.callNumber, call.lookup.bytes, call.ticket);
    }

    @Override
    void noteJoined(Call call) {
        call.answer = desk.valueBytes();
    }

    @Override
    void noteStep(Call call, int result) {
        if (call.reply == Native.VALUE && call.op != Native.INVOKE) {
            call.answer = desk.valueBytes();
        }
        if (call.op == Native.GET && call.loadAnswer == Native.NOT_ASKED) {
            call.before = call.answer;
        }
        boolean isKept = (result & Native.KEPT) != 0;
        boolean isLeft = (result & Native.LEFT) != 0;
        call.after = isKept ? call.brought() : isLeft ? null : call.before;
        call.hasChanged = isKept || isLeft || hasPutTheSame(call);
        if ((result & Native.EVICTED) != 0) {
            counts.evictions++;
        }
    }

    /** The core names no move if a value replaces the same bytes. It is an update all the same. */
    private static boolean hasPutTheSame(Call call) {
        boolean isReloaded = call.op == Native.RELOAD && call.loadAnswer == Native.FOUND;
        return call.before != null && (isReloaded || Counts.isPut(call, true));
    }

    @Override
    List<Object> keys(boolean withAbsent) {
        return desk.keys().stream().map(copier::keyOf).filter(key -> !isHidden(copier.lookup(key)))
                .collect(Collectors.toList());
    }

    @Override
    int verifyEntries() {
        if (nodes().size() != 0) {
            throw new IllegalStateException("a node is left");
        }
        return desk.keys().size();
    }
}
