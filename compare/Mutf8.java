import java.io.*;
import java.util.Arrays;

/**
 * The JDK as judge of rule 2: for each line of hexadecimal digits, a string's content, it prints `ok` where DataInputStream.readUTF takes it,
 * DataOutputStream.writeUTF gives the same bytes back and every surrogate has its partner; else `bad` and the length of the longest start of
 * which that holds, where the first sequence that can't be read begins (02, [3]). The byte that readUTF's own refusal names is by another rule.
 */
public class Mutf8 {
    public static void main(String[] a) throws IOException {
        BufferedReader in = new BufferedReader(new InputStreamReader(System.in, "US-ASCII"));
        PrintStream out = new PrintStream(new BufferedOutputStream(System.out, 1 << 16), false, "US-ASCII");
        for (String line; (line = in.readLine()) != null; ) out.println(verdict(line));
        out.flush();
    }

    static String verdict(String hex) throws IOException {
        int n = hex.length() / 2, k = n;
        byte[] b = new byte[n + 2];
        for (int i = 0; i < n; i++) b[i + 2] = (byte) Integer.parseInt(hex.substring(2 * i, 2 * i + 2), 16);
        while (!good(Arrays.copyOf(b, k + 2))) k--;
        return k == n ? "ok" : "bad " + k;
    }

    /** Whether the bytes from the third on are good; the first two are for their number. */
    static boolean good(byte[] b) throws IOException {
        b[0] = (byte) (b.length - 2 >> 8);
        b[1] = (byte) (b.length - 2);
        ByteArrayOutputStream w = new ByteArrayOutputStream();
        String s;
        try {
            s = new DataInputStream(new ByteArrayInputStream(b)).readUTF();
            new DataOutputStream(w).writeUTF(s);
        } catch (UTFDataFormatException e) {
            return false;
        }
        return Arrays.equals(b, w.toByteArray()) && paired(s);
    }

    static boolean paired(String s) {
        for (int i = 0; i < s.length(); i++) {
            if (Character.isLowSurrogate(s.charAt(i))) return false;
            if (Character.isHighSurrogate(s.charAt(i)) && (++i == s.length() || !Character.isLowSurrogate(s.charAt(i)))) return false;
        }
        return true;
    }
}
