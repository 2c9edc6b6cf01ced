import java.security.SecureRandom;
import org.bouncycastle.crypto.AsymmetricCipherKeyPair;
import org.bouncycastle.pqc.crypto.lms.*;

/** Times Bouncy Castle's LMS: keys, signatures and checks, the least of all rounds, after rounds that warm it up. */
class Lms {
    static final byte[] MESSAGE = "a short message".getBytes();

    static AsymmetricCipherKeyPair made(LMSigParameters height, LMOtsParameters width) {
        LMSKeyPairGenerator generator = new LMSKeyPairGenerator();
        generator.init(new LMSKeyGenerationParameters(new LMSParameters(height, width), new SecureRandom()));
        return generator.generateKeyPair();
    }

    static void time(String types, LMSigParameters height, LMOtsParameters width, int rounds) {
        double make = 1e18, sign = 1e18, verify = 1e18;
        for (int round = 0; round < rounds; round++) {
            long began = System.nanoTime();
            AsymmetricCipherKeyPair pair = made(height, width);
            make = Math.min(make, System.nanoTime() - began);
            LMSSigner signer = new LMSSigner();
            signer.init(true, pair.getPrivate());
            byte[] signature = null;
            began = System.nanoTime();
            for (int i = 0; i < 32; i++) signature = signer.generateSignature(MESSAGE);
            sign = Math.min(sign, (System.nanoTime() - began) / 32.0);
            LMSSigner checker = new LMSSigner();
            checker.init(false, pair.getPublic());
            began = System.nanoTime();
            for (int i = 0; i < 32; i++) if (!checker.verifySignature(MESSAGE, signature)) throw new RuntimeException("refused");
            verify = Math.min(verify, (System.nanoTime() - began) / 32.0);
        }
        System.out.printf("Bouncy Castle %s: make %.3f ms, %.2f a second; sign %.3f ms, %.0f a second; verify %.3f ms, %.0f a second%n",
            types, make / 1e6, 1e9 / make, sign / 1e6, 1e9 / sign, verify / 1e6, 1e9 / verify);
    }

    public static void main(String[] words) {
        time("5.3", LMSigParameters.lms_sha256_n32_h5, LMOtsParameters.sha256_n32_w4, 60);
        time("5.4", LMSigParameters.lms_sha256_n32_h5, LMOtsParameters.sha256_n32_w8, 20);
        time("6.3", LMSigParameters.lms_sha256_n32_h10, LMOtsParameters.sha256_n32_w4, 8);
    }
}
