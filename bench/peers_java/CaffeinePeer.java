import com.github.benmanes.caffeine.cache.CacheWriter;
import com.github.benmanes.caffeine.cache.Caffeine;
import com.github.benmanes.caffeine.cache.LoadingCache;
import com.github.benmanes.caffeine.cache.RemovalCause;

/** Caffeine with a loader and a writer. What it puts off is done by the thread that calls. */
final class CaffeinePeer implements Peers.Peer {
    private final LoadingCache<Peers.Bytes, Peers.Bytes> loading =
            Caffeine.newBuilder().maximumSize(Peers.KEYS).executor(Runnable::run).build(Peers.STORE::get);
    private final com.github.benmanes.caffeine.cache.Cache<Peers.Bytes, Peers.Bytes> writing =
            Caffeine.newBuilder().maximumSize(Peers.KEYS).executor(Runnable::run).writer(new Writer()).build();

    private static final class Writer implements CacheWriter<Peers.Bytes, Peers.Bytes> {
        @Override
        public void write(Peers.Bytes key, Peers.Bytes value) {
            Peers.STORE.put(key, value);
        }

        @Override
        public void delete(Peers.Bytes key, Peers.Bytes value, RemovalCause cause) {
            if (cause == RemovalCause.EXPLICIT) {
                Peers.STORE.remove(key);
            }
        }
    }

    @Override
    public Object get(Peers.Bytes key) {
        return loading.getIfPresent(key);
    }

    @Override
    public void put(Peers.Bytes key, Peers.Bytes value) {
        loading.put(key, value);
    }

    @Override
    public Object getThrough(Peers.Bytes key) {
        return loading.get(key);
    }

    @Override
    public void putThrough(Peers.Bytes key, Peers.Bytes value) {
        writing.put(key, value);
    }
}
