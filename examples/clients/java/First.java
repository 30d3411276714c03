import java.util.Map;

/**
 * The first session of README.md.
 *
 * <pre>java -cp CLASSES First HOST:PORT</pre>
 */
public class First {
    public static void main(String[] args) throws Exception {
        try (Jsp jsp = Jsp.connect(args[0])) {
            jsp.declare("Job", Map.of("k", Jsp.Kind.INT, "who", Jsp.Kind.TEXT));
            Jsp.Space a = jsp.space("a");
            a.write(Jsp.entry("Job").with("k", 1), null, 1000);
            System.out.println(a.take(Jsp.entry("Job").with("k", 1), null, Jsp.NO_WAIT));
        }
    }
}
