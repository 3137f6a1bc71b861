import java.io.StringWriter;
import java.net.URI;
import java.nio.file.Path;
import java.util.List;
import javax.tools.JavaCompiler;
import javax.tools.JavaFileObject;
import javax.tools.SimpleJavaFileObject;
import javax.tools.ToolProvider;
import pkder.Pkder;

/** What the compiler says of a line, which may look at the octets of a key. */
final class Compiled {
    private Compiled() {}

    static String says(String line) throws Exception {
        String source = "class Line { void run(byte[] key) throws Exception { " + line + " } }";
        JavaFileObject file = new SimpleJavaFileObject(URI.create("string:///Line.java"), JavaFileObject.Kind.SOURCE) {
            @Override
            public CharSequence getCharContent(boolean ignoresErrors) {
                return source;
            }
        };
        Path jar = Path.of(Pkder.class.getProtectionDomain().getCodeSource().getLocation().toURI());
        JavaCompiler compiler = ToolProvider.getSystemJavaCompiler();
        StringWriter said = new StringWriter();
        List<String> words = List.of("-cp", jar.toString(), "-proc:none", "-implicit:none", "-Xlint:none", "-d",
            System.getProperty("java.io.tmpdir"));
        compiler.getTask(said, null, null, words, null, List.of(file)).call();
        return said.toString();
    }
}
