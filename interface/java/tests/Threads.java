import java.lang.reflect.InvocationTargetException;
import java.lang.reflect.Method;
import java.net.URL;
import java.net.URLClassLoader;
import java.nio.file.Files;
import java.nio.file.Path;
import java.util.ArrayList;
import java.util.Arrays;
import java.util.List;
import java.util.concurrent.Callable;
import java.util.concurrent.CountDownLatch;
import java.util.concurrent.ExecutorService;
import java.util.concurrent.Executors;
import java.util.concurrent.Future;
import java.util.concurrent.FutureTask;
import pkder.FaultException;
import pkder.Kind;
import pkder.Limits;
import pkder.Pkder;
import pkder.ReportForm;

/** Threads, their stacks, class loaders, and memory. */
final class Threads {
    private static final int AT_ONCE = 16;
    private static final int ROUNDS = 25;
    private static final String SHORT = "too little stack is left for a call of libpkder";
    private static final Limits DEEPEST = new Limits(64, 1048576);

    private Threads() {}

    static void atOnce() throws Exception {
        ExecutorService pool = Executors.newFixedThreadPool(AT_ONCE);
        CountDownLatch begin = new CountDownLatch(AT_ONCE);
        List<Future<Integer>> rounds = new ArrayList<>();
        for (int thread = 0; thread < AT_ONCE; thread++) {
            rounds.add(pool.submit(() -> {
                begin.countDown();
                begin.await();
                return rounds();
            }));
        }
        for (Future<Integer> each : rounds) {
            Claims.equal(each.get(), ROUNDS, "rounds");
        }
        pool.shutdown();
    }

    private static int rounds() throws Exception {
        byte[] der = Documents.key();
        byte[] ber = Documents.keyInBer();
        byte[] request = Documents.cutRequest();
        for (int round = 0; round < ROUNDS; round++) {
            Claims.holds(Arrays.equals(Pkder.normalise(Kind.KEY, ber), der), "normalise");
            Claims.holds(Pkder.explain(Kind.KEY, der).isDer(), "explain");
            Claims.equal(Pkder.field(Kind.KEY, der), "", "field");
            Claims.holds(!Pkder.check(Kind.KEY, ber).isDer(), "check");
            Claims.holds(Pkder.same(Kind.KEY, ber, der), "same");
            String text = Pkder.explain(Kind.REQUEST, request, ReportForm.ALL_JSON, Limits.USUAL).text();
            Claims.holds(text.endsWith("}\n"), "a long report");
        }
        return ROUNDS;
    }

    /** A call with too little stack is an error of Java, and not the end of the process. */
    static void stacks() throws Exception {
        byte[] deep = Documents.deep(64);
        for (Claims.Attempt deepest : List.<Claims.Attempt>of(
                 () -> Pkder.check(Kind.PUBLIC, deep, DEEPEST), () -> Pkder.same(Kind.PUBLIC, deep, deep, DEEPEST))) {
            Claims.equal(onStack(1024, () -> thrownBy(deepest)), "nothing", "a usual stack");
            // (a small one may be that of a thread which has ended, of up to four times its size)
            for (int kib : new int[] {144, 160, 192}) {
                Claims.equal(onStack(kib, () -> thrownBy(deepest)), SHORT, kib + " KiB");
            }
        }
        for (Claims.Attempt call : usualCalls(Documents.deep(32))) {
            Claims.equal(onStack(216, () -> thrownBy(call)), "nothing", "a small stack");
            Claims.equal(onStack(216, () -> thrownBy(() -> callDeeper(call))), SHORT, "deeper and deeper");
        }
    }

    private static String thrownBy(Claims.Attempt call) throws Exception {
        try {
            call.run();
            return "nothing";
        } catch (StackOverflowError why) {
            return why.getMessage();
        }
    }

    private static List<Claims.Attempt> usualCalls(byte[] document) {
        return List.of(()
                           -> Pkder.check(Kind.PUBLIC, document),
            ()
                -> Pkder.normalise(Kind.PUBLIC, document),
            ()
                -> Pkder.same(Kind.PUBLIC, document, document),
            ()
                -> Pkder.show(Kind.PUBLIC, document),
            ()
                -> Pkder.field(Kind.PUBLIC, document),
            () -> Pkder.explain(Kind.PUBLIC, document, ReportForm.ALL_JSON, Limits.USUAL));
    }

    /** Makes the call where ever less of the stack is left. */
    private static void callDeeper(Claims.Attempt call) throws Exception {
        call.run();
        callDeeper(call);
    }

    private static String onStack(int kib, Callable<String> call) throws Exception {
        FutureTask<String> task = new FutureTask<>(call);
        Thread thread = new Thread(null, task, "small", 1024L * kib);
        thread.start();
        return task.get();
    }

    /** Each class loader has a native library of its own. */
    static void loaders() throws Exception {
        Claims.equal(inOtherLoader(), "DER", "another class loader");
        Claims.equal(inOtherLoader(), "DER", "one more");
        String machine = System.setProperty("os.arch", "other");
        try {
            Throwable why =
                Claims.thrown(InvocationTargetException.class, Threads::inOtherLoader, "a machine").getCause();
            Claims.equal(why.getClass(), UnsatisfiedLinkError.class, "another machine");
            Claims.equal(why.getMessage(), "pkder.jar has no native library for Linux-other", "another machine");
        } finally {
            System.setProperty("os.arch", machine);
        }
    }

    private static String inOtherLoader() throws Exception {
        URL jar = Pkder.class.getProtectionDomain().getCodeSource().getLocation();
        try (URLClassLoader loader = new URLClassLoader(new URL[] {jar}, ClassLoader.getPlatformClassLoader())) {
            Class<?> kinds = loader.loadClass("pkder.Kind");
            Method check = loader.loadClass("pkder.Pkder").getMethod("check", kinds, byte[].class);
            Claims.holds(kinds != Kind.class, "a class of its own");
            return check.invoke(null, kinds.getEnumConstants()[0], Documents.key()).toString();
        }
    }

    /** A thousand great documents leave no memory taken outside the heap. */
    static void memory() throws Exception {
        byte[] zeros = new byte[1048576];
        long before = residentPages();
        for (int round = 0; round < 1000; round++) {
            Pkder.explain(Kind.KEY, zeros);
            Pkder.field(Kind.KEY, zeros);
            Claims.thrown(FaultException.class, () -> Pkder.same(Kind.KEY, zeros, zeros), "zeros");
        }
        long more = residentPages() - before;
        Claims.holds(more < 16384, more + " pages more");
    }

    private static long residentPages() throws Exception {
        return Long.parseLong(Files.readString(Path.of("/proc/self/statm")).split(" ")[1]);
    }
}
