import java.io.BufferedReader;
import java.io.IOException;
import java.io.InputStreamReader;
import java.security.SecureRandom;

import org.bouncycastle.crypto.AsymmetricCipherKeyPair;
import org.bouncycastle.pqc.crypto.picnic.PicnicKeyGenerationParameters;
import org.bouncycastle.pqc.crypto.picnic.PicnicKeyPairGenerator;
import org.bouncycastle.pqc.crypto.picnic.PicnicParameters;
import org.bouncycastle.pqc.crypto.picnic.PicnicPrivateKeyParameters;
import org.bouncycastle.pqc.crypto.picnic.PicnicPublicKeyParameters;
import org.bouncycastle.pqc.crypto.picnic.PicnicSigner;
import org.bouncycastle.util.encoders.Hex;

/**
 * The partner's program, Bouncy Castle, doing jobs: reads one a line from standard input and answers each with a line. All bytes
 * are in lower-case hex.
 *
 * keys SET -> SECRET PUBLIC
 * sign SET SECRET PUBLIC MESSAGE -> the signature
 * verify SET PUBLIC MESSAGE SIGNATURE -> valid or invalid
 *
 * If an exception is thrown, the answer is the word throws and its name.
 */
public final class Partner {
    /** The sets from number 1 on: the byte that its keys start with, and its name for the set. */
    private enum Set {
        L1_FS("01", PicnicParameters.picnicl1fs),
        L3_FS("03", PicnicParameters.picnicl3fs),
        L5_FS("05", PicnicParameters.picnicl5fs);

        final String start;
        final PicnicParameters parameters;

        Set(String start, PicnicParameters parameters) {
            this.start = start;
            this.parameters = parameters;
        }
    }

    private static final SecureRandom RANDOM = new SecureRandom();

    /** Its secret key is the set's byte, the key, and the public key; its public key the same byte, C and p. */
    private static String keys(Set set) {
        PicnicKeyPairGenerator generator = new PicnicKeyPairGenerator();
        generator.init(new PicnicKeyGenerationParameters(RANDOM, set.parameters));
        AsymmetricCipherKeyPair pair = generator.generateKeyPair();
        String whole = Hex.toHexString(((PicnicPrivateKeyParameters) pair.getPrivate()).getEncoded());
        String open = Hex.toHexString(((PicnicPublicKeyParameters) pair.getPublic()).getEncoded()).substring(2);
        if (!whole.startsWith(set.start) || !whole.endsWith(open))
            throw new IllegalStateException("the partner's keys have another form");
        return whole.substring(2, whole.length() - open.length()) + " " + open;
    }

    private static String sign(Set set, String secret, String open, String message) {
        PicnicSigner signer = new PicnicSigner();
        signer.init(true, new PicnicPrivateKeyParameters(set.parameters, Hex.decode(set.start + secret + open)));
        return Hex.toHexString(signer.generateSignature(Hex.decode(message)));
    }

    private static String verify(Set set, String open, String message, String signature) {
        PicnicSigner signer = new PicnicSigner();
        signer.init(false, new PicnicPublicKeyParameters(set.parameters, Hex.decode(set.start + open)));
        return signer.verifySignature(Hex.decode(message), Hex.decode(signature)) ? "valid" : "invalid";
    }

    private static String done(String[] words) {
        Set set = Set.values()[Integer.parseInt(words[1]) - 1];
        switch (words[0]) {
            case "keys":
                return keys(set);
            case "sign":
                return sign(set, words[2], words[3], words[4]);
            case "verify":
                return verify(set, words[2], words[3], words[4]);
            default:
                throw new IllegalArgumentException("there is no job " + words[0]);
        }
    }

    private static String answer(String job) {
        try {
            return done(job.split(" "));
        } catch (RuntimeException thrown) {
            return "throws " + thrown.getClass().getSimpleName();
        }
    }

    public static void main(String[] none) throws IOException {
        BufferedReader jobs = new BufferedReader(new InputStreamReader(System.in));
        for (String job = jobs.readLine(); job != null; job = jobs.readLine())
            System.out.println(answer(job));
    }
}
