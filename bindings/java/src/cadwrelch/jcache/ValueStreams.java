package cadwrelch.jcache;

import java.io.ByteArrayInputStream;
import java.io.ByteArrayOutputStream;
import java.io.IOException;
import java.io.InputStream;
import java.io.ObjectInputStream;
import java.io.ObjectOutputStream;
import java.io.ObjectStreamClass;
import java.io.OutputStream;
import java.lang.ref.WeakReference;
import java.lang.reflect.Proxy;
import java.util.List;
import java.util.concurrent.CopyOnWriteArrayList;
import java.util.function.Supplier;

/**
 * Serializes values, and reads them back by the class loader of a cache manager. The bytes serve this object alone: a
 * class that the loader has is written as a number, since its description takes longer than most values.
 */
final class ValueStreams {
    private static final int USUAL_SIZE = 128;
    private static final int NO_NUMBER = -1;

    private final Supplier<ClassLoader> loader;
    /** The classes that have numbers, which are kept from unloading by nothing here. */
    private final List<WeakReference<Class<?>>> numbered = new CopyOnWriteArrayList<>();
    private final ClassValue<Integer> numbers = new ClassValue<>() {
        @Override
        protected Integer computeValue(Class<?> type) {
            return isOfLoader(type) ? newNumber(type) : NO_NUMBER;
        }
    };

    /** Streams of the classes of a loader. */
    ValueStreams(Supplier<ClassLoader> loader) {
        this.loader = loader;
    }

    private boolean isOfLoader(Class<?> type) {
        try {
            return find(type.getName()) == type;
        } catch (ClassNotFoundException | LinkageError e) {
            return false;
        }
    }

    private Class<?> find(String name) throws ClassNotFoundException {
        return Class.forName(name, false, loader.get());
    }

    private synchronized int newNumber(Class<?> type) {
        numbered.add(new WeakReference<>(type));
        return numbered.size() - 1;
    }

    /** The bytes of an object. */
    byte[] write(Object it) throws IOException {
        ByteArrayOutputStream bytes = new ByteArrayOutputStream(USUAL_SIZE);
        try (ObjectOutputStream out = new Out(bytes)) {
            out.writeObject(it);
        }
        return bytes.toByteArray();
    }

    /** A new object of bytes that were written here. */
    Object read(byte[] bytes) throws IOException, ClassNotFoundException {
        try (ObjectInputStream in = new In(new ByteArrayInputStream(bytes))) {
            return in.readObject();
        }
    }

    private final class Out extends ObjectOutputStream {
        Out(OutputStream out) throws IOException {
            super(out);
        }

        @Override
        protected void writeStreamHeader() {
            // Nobody else reads it.
        }

        @Override
        protected void writeClassDescriptor(ObjectStreamClass description) throws IOException {
            int number = numbers.get(description.forClass());
            writeInt(number);
            if (number == NO_NUMBER) {
                super.writeClassDescriptor(description);
            }
        }
    }

    private final class In extends ObjectInputStream {
        In(InputStream in) throws IOException {
            super(in);
        }

        @Override
        protected void readStreamHeader() {
            // There is none.
        }

        @Override
        protected ObjectStreamClass readClassDescriptor() throws IOException, ClassNotFoundException {
            int number = readInt();
            if (number == NO_NUMBER) {
                return super.readClassDescriptor();
            }
            Class<?> type = numbered.get(number).get();
            if (type == null) {
                throw new ClassNotFoundException("the class was unloaded");
            }
            return ObjectStreamClass.lookupAny(type);
        }

        @Override
        protected Class<?> resolveClass(ObjectStreamClass description) throws IOException, ClassNotFoundException {
            if (description.forClass() != null) {
                return description.forClass();
            }
            try {
                return find(description.getName());
            } catch (ClassNotFoundException e) {
                return super.resolveClass(description);
            }
        }

        @Override
        protected Class<?> resolveProxyClass(String[] names) throws IOException, ClassNotFoundException {
            try {
                Class<?>[] interfaces = new Class<?>[names.length];
                for (int i = 0; i < names.length; i++) {
                    interfaces[i] = find(names[i]);
                }
                return Proxy.newProxyInstance(loader.get(), interfaces, (proxy, method, arguments) -> null).getClass();
            } catch (ClassNotFoundException | IllegalArgumentException e) {
                return super.resolveProxyClass(names);
            }
        }
    }
}
