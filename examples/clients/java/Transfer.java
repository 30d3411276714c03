import java.io.IOException;
import java.util.Map;
import java.util.UUID;

/**
 * A transfer between two spaces under a transaction, while another client looks on.
 *
 * <pre>java -cp CLASSES Transfer HOST:PORT</pre>
 *
 * <p>It opens two connections. The other client sees the amounts before the transfer, or those after it, and is told of
 * the entries that the commit brings: never of what was written in between. Its accounts bear the name of this run, so
 * that it can be run again and beside others; a minute later they are gone.
 */
public class Transfer {
    private static final long LEASE = 60_000;

    /** An account of this run. */
    private static final Jsp.Entry ACCOUNT = Jsp.entry("Account").with("run", UUID.randomUUID().toString());

    public static void main(String[] args) throws Exception {
        try (Jsp jsp = Jsp.connect(args[0]);
                Jsp other = Jsp.connect(args[0])) {
            jsp.declare("Account", Map.of("run", Jsp.Kind.TEXT, "amount", Jsp.Kind.INT));
            jsp.space("a").write(account(70), null, LEASE);
            jsp.space("b").write(account(30), null, LEASE);
            System.out.println("before: " + shown(other));
            Jsp.Space b = other.space("b");
            try (Jsp.EventRegistration changes = b.notify(ACCOUNT, null, LEASE, "b has changed")) {
                transfer(jsp, 50);
                System.out.println("after 50 more: " + shown(other));
                System.out.println("told: " + changes.next(60_000).handback());

                try {
                    transfer(jsp, 50);
                } catch (IllegalStateException notEnough) {
                    System.out.println(notEnough.getMessage() + ": " + shown(other));
                }
                System.out.println("told of what was aborted: " + changes.next(200));
            }

            try {
                jsp.space("c").write(account(1), null, LEASE);
            } catch (Jsp.Refused refused) {
                System.out.println("a space that isn't there: " + refused.getMessage());
            }
        }
    }

    /** Moves an amount from the account in a to the one in b, or leaves both as they are. */
    private static void transfer(Jsp jsp, long amount) throws IOException, InterruptedException {
        try (Jsp.Transaction txn = jsp.transaction(LEASE)) {
            long payer = jsp.space("a").take(ACCOUNT, txn, Jsp.NO_WAIT).number("amount");
            long payee = jsp.space("b").take(ACCOUNT, txn, Jsp.NO_WAIT).number("amount");
            jsp.space("a").write(account(payer - amount), txn, LEASE);
            jsp.space("b").write(account(payee + amount), txn, LEASE);
            if (amount > payer) {
                throw new IllegalStateException("not enough");
            }
            txn.commit();
        }
    }

    private static Jsp.Entry account(long amount) {
        return ACCOUNT.with("amount", amount);
    }

    private static String shown(Jsp jsp) throws IOException, InterruptedException {
        Jsp.Entry a = jsp.space("a").read(ACCOUNT, null, Jsp.NO_WAIT);
        Jsp.Entry b = jsp.space("b").read(ACCOUNT, null, Jsp.NO_WAIT);
        return "a " + a.number("amount") + " b " + b.number("amount");
    }
}
