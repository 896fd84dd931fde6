package pcommit.client;

import java.security.GeneralSecurityException;
import java.util.HexFormat;
import javax.crypto.Mac;
import javax.crypto.spec.SecretKeySpec;

/** Proves to one node that a client has the clients' key: the HMAC-SHA256 over the words of the node and its challenge. */
record Proof(byte[] key, byte[] words) {
    /** The line with which a challenge, in hex, is answered. */
    String line(final String challenge) {
        try {
            final Mac mac = Mac.getInstance("HmacSHA256");
            mac.init(new SecretKeySpec(key, "HmacSHA256"));
            mac.update(words);
            return "proof " + HexFormat.of().formatHex(mac.doFinal(HexFormat.of().parseHex(challenge)));
        } catch (GeneralSecurityException error) {
            throw new IllegalStateException("every Java has HMAC-SHA256", error);
        }
    }
}
