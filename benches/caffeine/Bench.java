import com.github.benmanes.caffeine.cache.Cache;
import com.github.benmanes.caffeine.cache.Caffeine;
import java.io.BufferedReader;
import java.io.IOException;
import java.io.InputStreamReader;
import java.lang.management.ManagementFactory;
import java.lang.management.ThreadMXBean;
import java.util.Arrays;
import java.util.concurrent.atomic.AtomicLong;
import java.util.function.IntFunction;

/**
 * Caffeine beside the cache of this repository, as benches/caffeine/run.sh starts it.
 *
 * <pre>
 * Bench ratios CAPACITY..         reads a trace (a key a line), and prints for each capacity how many of its keys were found
 * Bench times EXPONENT SIZE..     prints for each size and call the nanoseconds a call: median, least and greatest of the rounds
 * Bench memory SIZE..             prints for each size the bytes of heap that a value takes above key and value
 * Bench threads EXPONENT WORK SIZE CALLS THREADS..
 *                                 prints for each number of threads the processor nanoseconds a call and the million calls a second:
 *                                 medians of the rounds. WORK is mix or load, as in benches/work
 * </pre>
 *
 * A key that is not found is written. Maintenance runs on the caller's thread, so that its time counts. Times are processor time of
 * that thread, less that of a loop without calls; what the machine collects of garbage and compiles is not in them.
 * Keys are drawn by Zipf's law with that exponent; a fetch draws from twice as many keys as are held.
 */
public final class Bench {
  private static final int ROUNDS = 5;
  private static final int DRAWN = 1_000_000;
  private static final int PASSES = 2;
  private static final int PAIR_BYTES = 16;
  private static final ThreadMXBean THREADS = ManagementFactory.getThreadMXBean();

  private Bench() {}

  private static Cache<Long, Long> makeCache(int capacity) {
    return Caffeine.newBuilder()
        .maximumSize(capacity)
        .initialCapacity(capacity)
        .executor(Runnable::run)
        .build();
  }

  /** The numbers on standard input, a line each. */
  private static long[] readTrace() throws IOException {
    try (var lines = new BufferedReader(new InputStreamReader(System.in))) {
      return lines.lines().mapToLong(Long::parseLong).toArray();
    }
  }

  /** How many of the keys are found, where each that is not is written. */
  private static int found(long[] keys, int capacity) {
    Cache<Long, Long> cache = makeCache(capacity);
    int found = 0;
    for (long key : keys) {
      if (cache.getIfPresent(key) != null) {
        found++;
      } else {
        cache.put(key, key);
      }
    }
    return found;
  }

  /** The next number that is drawn, as benches/work draws it. */
  private static long nextDraw(long draw) {
    return draw * 6364136223846793005L + 1442695040888963407L;
  }

  /** Keys below a number by Zipf's law; those asked for most do not stand side by side. */
  private static Long[] drawKeys(double exponent, int places) {
    double[] sums = new double[places];
    double sum = 0;
    for (int rank = 0; rank < places; rank++) {
      sum += Math.pow(rank + 1, -exponent);
      sums[rank] = sum;
    }
    Long[] boxed = new Long[places];
    Arrays.setAll(boxed, place -> (long) place);
    Long[] keys = new Long[DRAWN];
    long draw = 7;
    for (int place = 0; place < DRAWN; place++) {
      draw = nextDraw(draw);
      int rank = Arrays.binarySearch(sums, (draw >>> 11) * 0x1.0p-53 * sum);
      rank = Math.min(places - 1, rank < 0 ? -rank - 1 : rank);
      keys[place] = boxed[(int) (rank * 7_654_321L % places)];
    }
    return keys;
  }

  private static long fetch(Cache<Long, Long> cache, Long key) {
    Long value = cache.getIfPresent(key);
    if (value != null) {
      return value;
    }
    cache.put(key, key);
    return 0;
  }

  private static long goThrough(Long[] keys, IntFunction<Long> call) {
    long sum = 0;
    for (int place = 0; place < keys.length; place++) {
      sum += call.apply(place);
    }
    return sum;
  }

  private static Cache<Long, Long> filled(int size) {
    Cache<Long, Long> cache = makeCache(size);
    for (long key = 0; key < size; key++) {
      cache.put(key, key);
    }
    return cache;
  }

  /** The nanoseconds that a call takes, over all passes. */
  private static double nanosOf(Long[] keys, IntFunction<Long> call) {
    long begun = THREADS.getCurrentThreadCpuTime();
    long sum = 0;
    for (int pass = 0; pass < PASSES; pass++) {
      sum += goThrough(keys, call);
    }
    long spent = THREADS.getCurrentThreadCpuTime() - begun;
    if (sum == 42) {
      System.err.println("(the sum is used)");
    }
    return (double) spent / keys.length / PASSES;
  }

  private static IntFunction<Long> callOf(String work, Cache<Long, Long> cache, Long[] keys) {
    return switch (work) {
      case "get" -> place -> {
        Long value = cache.getIfPresent(keys[place]);
        return value == null ? 0L : value;
      };
      case "put" -> place -> {
        cache.put(keys[place], keys[place]);
        return 1L;
      };
      default -> place -> fetch(cache, keys[place]);
    };
  }

  /** Times one kind of call. The first round warms the machine up, and is not counted. */
  private static void time(double exponent, int size, String work) {
    Long[] keys = drawKeys(exponent, work.equals("fetch") ? 2 * size : size);
    double[] nanos = new double[ROUNDS];
    for (int round = -1; round < ROUNDS; round++) {
      Cache<Long, Long> cache = filled(size);
      double loop = nanosOf(keys, place -> keys[place]);
      double spent = nanosOf(keys, callOf(work, cache, keys)) - loop;
      if (round >= 0) {
        nanos[round] = spent;
      }
    }
    Arrays.sort(nanos);
    System.out.printf("%d %s %.1f %.1f %.1f%n", size, work, nanos[ROUNDS / 2], nanos[0], nanos[ROUNDS - 1]);
  }

  /** One thread's calls; the processor nanoseconds that they took. */
  private static long callAll(Cache<Long, Long> cache, Long[] keys, String work, int from, int calls) {
    long begun = THREADS.getCurrentThreadCpuTime();
    long sum = 0;
    for (int turn = 0; turn < calls; turn++) {
      Long key = keys[(turn + from) % keys.length];
      if (work.equals("load")) {
        sum += fetch(cache, key);
      } else if (turn % 10 == 9) {
        cache.put(key, key);
      } else {
        Long value = cache.getIfPresent(key);
        sum += value == null ? 0 : value;
      }
    }
    long spent = THREADS.getCurrentThreadCpuTime() - begun;
    if (sum == 42) {
      System.err.println("(the sum is used)");
    }
    return spent;
  }

  /** The processor nanoseconds a call and the million calls a second of so many threads on a cache that was filled. */
  private static double[] shared(Long[] keys, String work, int size, int calls, int count) throws InterruptedException {
    Cache<Long, Long> cache = filled(size);
    AtomicLong spent = new AtomicLong();
    Thread[] threads = new Thread[count];
    long begun = System.nanoTime();
    for (int number = 0; number < count; number++) {
      int from = number * 7919;
      threads[number] = new Thread(() -> spent.addAndGet(callAll(cache, keys, work, from, calls)));
      threads[number].start();
    }
    for (Thread thread : threads) {
      thread.join();
    }
    double passed = System.nanoTime() - begun;
    return new double[] {(double) spent.get() / count / calls, 1e3 * count * calls / passed};
  }

  /** The medians over the rounds. The first round warms the machine up, and is not counted. */
  private static void share(Long[] keys, String work, int size, int calls, int count) throws InterruptedException {
    double[][] rounds = new double[2][ROUNDS];
    for (int round = -1; round < ROUNDS; round++) {
      double[] measured = shared(keys, work, size, calls, count);
      for (int which = 0; which < 2 && round >= 0; which++) {
        rounds[which][round] = measured[which];
      }
    }
    Arrays.sort(rounds[0]);
    Arrays.sort(rounds[1]);
    System.out.printf("%d %.1f %.3f%n", count, rounds[0][ROUNDS / 2], rounds[1][ROUNDS / 2]);
  }

  private static void shareAll(String[] words) throws InterruptedException {
    int size = Integer.parseInt(words[3]);
    int calls = Integer.parseInt(words[4]);
    Long[] keys = drawKeys(Double.parseDouble(words[1]), words[2].equals("load") ? 2 * size : size);
    for (int count : numbersFrom(words, 5)) {
      System.err.printf("caffeine: %s at %,d by %d threads%n", words[2], size, count);
      share(keys, words[2], size, calls, count);
    }
  }

  private static long usedBytes() throws InterruptedException {
    for (int turn = 0; turn < 4; turn++) {
      System.gc();
      Thread.sleep(50);
    }
    Runtime runtime = Runtime.getRuntime();
    return runtime.totalMemory() - runtime.freeMemory();
  }

  private static double bytesAValue(int size) throws InterruptedException {
    long before = usedBytes();
    Cache<Long, Long> cache = filled(size);
    long after = usedBytes();
    if (cache.estimatedSize() != size) {
      throw new IllegalStateException("not all values are held");
    }
    return (double) (after - before) / size - PAIR_BYTES;
  }

  private static void weigh(int[] sizes) throws InterruptedException {
    // What the machine itself frees as it begins would else count.
    bytesAValue(sizes[0]);
    for (int size : sizes) {
      System.out.printf("%d %.0f%n", size, bytesAValue(size));
    }
  }

  private static void timeAll(double exponent, int[] sizes) {
    for (int size : sizes) {
      for (String work : new String[] {"get", "put", "fetch"}) {
        System.err.printf("caffeine: %s at %,d%n", work, size);
        time(exponent, size, work);
      }
    }
  }

  private static void printRatios(int[] capacities) throws IOException {
    long[] trace = readTrace();
    for (int capacity : capacities) {
      System.out.printf("%d %d %d%n", capacity, found(trace, capacity), trace.length);
    }
  }

  private static int[] numbersFrom(String[] words, int first) {
    return Arrays.stream(words, first, words.length).mapToInt(Integer::parseInt).toArray();
  }

  public static void main(String[] words) throws Exception {
    switch (words.length < 2 ? "" : words[0]) {
      case "ratios" -> printRatios(numbersFrom(words, 1));
      case "times" -> timeAll(Double.parseDouble(words[1]), numbersFrom(words, 2));
      case "memory" -> weigh(numbersFrom(words, 1));
      case "threads" -> shareAll(words);
      default -> {
        System.err.println("usage: Bench ratios CAPACITY.. | times EXPONENT SIZE.. | memory SIZE.. | threads EXPONENT WORK SIZE CALLS THREADS..");
        System.exit(2);
      }
    }
  }
}
