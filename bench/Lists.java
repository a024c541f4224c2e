import java.util.concurrent.atomic.AtomicLong;
import java.util.concurrent.atomic.AtomicReferenceArray;

/**
 * Threads that make lists, share them and read them back, as the work `lists` of the crate `bench_portions`: java Lists
 * THREADS LISTS. It prints how many nodes were made, and the nanoseconds, after a tenth of the work to warm up.
 */
public final class Lists {
    private static final int LENGTH = 1_000;
    private static final long SUM = (long) LENGTH * (LENGTH - 1) / 2;

    private static final class Node {
        Node next;
        long number;
    }

    /** The last list of each thread. */
    private final AtomicReferenceArray<Node> board;
    private final AtomicLong wrong = new AtomicLong();

    private Lists(int threads) {
        board = new AtomicReferenceArray<>(threads);
    }

    private static Node make() {
        Node head = null;
        for (int number = 0; number < LENGTH; number++) {
            Node node = new Node();
            node.number = number;
            node.next = head;
            head = node;
        }
        return head;
    }

    private static long sum(Node head) {
        long sum = 0;
        for (Node node = head; node != null; node = node.next) {
            sum += node.number;
        }
        return sum;
    }

    private void work(int thread, int lists) {
        int next = (thread + 1) % board.length();
        for (int list = 0; list < lists; list++) {
            board.set(thread, make());
            Node other = board.get(next);
            if (other != null && sum(other) != SUM) {
                wrong.incrementAndGet();
            }
        }
    }

    private void run(int lists) throws InterruptedException {
        Thread[] threads = new Thread[board.length()];
        for (int number = 0; number < threads.length; number++) {
            int thread = number;
            threads[number] = new Thread(() -> work(thread, lists));
            threads[number].start();
        }
        for (Thread thread : threads) {
            thread.join();
        }
    }

    public static void main(String[] words) throws InterruptedException {
        int threads = Integer.parseInt(words[0]);
        int lists = Integer.parseInt(words[1]);
        Lists all = new Lists(threads);
        all.run(lists / 10);
        long start = System.nanoTime();
        all.run(lists);
        long nanos = System.nanoTime() - start;
        System.out.println("lists " + (long) threads * lists * LENGTH + " " + nanos);
        System.exit(all.wrong.get() == 0 ? 0 : 1);
    }
}
