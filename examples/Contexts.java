import java.security.PrivilegedExceptionAction;
import javax.security.auth.Subject;
import javax.security.auth.login.LoginContext;
import org.ietf.jgss.*;

/**
 * An initiator and an acceptor of Java's GSS-API in one process: java -Djava.security.auth.login.config=FILE Contexts.java SERVICE@HOST.
 * FILE has an entry `client` with a credential cache, and an entry `server` with a keytab (docs/SERVICES.md).
 */
public class Contexts {
    static <T> T as(String entry, PrivilegedExceptionAction<T> act) throws Exception {
        LoginContext login = new LoginContext(entry);
        login.login();
        return Subject.doAs(login.getSubject(), act);
    }

    public static void main(String[] words) throws Exception {
        GSSManager manager = GSSManager.getInstance();
        Oid kerberos = new Oid("1.2.840.113554.1.2.2");
        GSSName service = manager.createName(words[0], GSSName.NT_HOSTBASED_SERVICE);
        GSSContext client = as("client", () -> manager.createContext(service, kerberos, null, GSSContext.DEFAULT_LIFETIME));
        client.requestMutualAuth(true);
        GSSContext server = as("server", () -> manager.createContext(
            manager.createCredential(null, GSSCredential.INDEFINITE_LIFETIME, kerberos, GSSCredential.ACCEPT_ONLY)));

        byte[] first = as("client", () -> client.initSecContext(new byte[0], 0, 0));
        byte[] answer = as("server", () -> server.acceptSecContext(first, 0, first.length));
        as("client", () -> client.initSecContext(answer, 0, answer.length));
        byte[] wrapped = client.wrap("a message".getBytes(), 0, 9, new MessageProp(0, true));
        String message = new String(server.unwrap(wrapped, 0, wrapped.length, new MessageProp(0, true)));
        if (!client.isEstablished() || !server.isEstablished() || !client.getMutualAuthState() || !message.equals("a message"))
            throw new IllegalStateException("expected one context, mutual authentication and one message");
        System.out.println(server.getSrcName() + " is admitted");
    }
}
