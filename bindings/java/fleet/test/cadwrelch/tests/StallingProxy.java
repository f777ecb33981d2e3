package cadwrelch.tests;

import java.io.IOException;
import java.io.InputStream;
import java.io.OutputStream;
import java.net.InetAddress;
import java.net.ServerSocket;
import java.net.Socket;

/** Hands on what goes between a client and a server, until it is told to hand on nothing. */
final class StallingProxy implements AutoCloseable {
    private final ServerSocket server = new ServerSocket(0, 50, InetAddress.getLoopbackAddress());
    private final int port;
    volatile boolean isStalled;

    StallingProxy(int port) throws IOException {
        this.port = port;
        thread(this::accept);
    }

    int port() {
        return server.getLocalPort();
    }

    private static void thread(Check.Body body) {
        Background.start(body);
    }

    private void accept() throws IOException {
        while (!server.isClosed()) {
            Socket client = server.accept();
            Socket behind = new Socket(InetAddress.getLoopbackAddress(), port);
            thread(() -> copy(client, behind));
            thread(() -> copy(behind, client));
        }
    }

    private void copy(Socket from, Socket to) throws IOException, InterruptedException {
        try (from; to) {
            InputStream in = from.getInputStream();
            OutputStream out = to.getOutputStream();
            byte[] bytes = new byte[8192];
            int count = in.read(bytes);
            while (count > 0) {
                while (isStalled) {
                    Thread.sleep(5);
                }
                out.write(bytes, 0, count);
                count = in.read(bytes);
            }
        }
    }

    @Override
    public void close() throws IOException {
        server.close();
    }
}
