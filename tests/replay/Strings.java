// Writes the cases of crates/replay_strings: stdin has a byte string a line, in hexadecimal, stdout what the JDK says of it.
//
//     java tests/replay/Strings.java crates/replay_strings
//
// A line of stdout is three words:
//   1. modified UTF-8: `ok`, or the offset at which the first sequence that can't be read begins. The JDK is asked of every prefix:
//      DataInputStream.readUTF accepts it, writeUTF gives the same bytes, and every surrogate is paired. The longest prefix of which
//      that holds ends where the first bad sequence begins.
//   2. UTF-8: the same, by the JDK's strict decoder.
//   3. the string in modified UTF-8 as writeUTF gives it, where the second word is `ok`; else `-`.
import java.io.*;
import java.nio.ByteBuffer;
import java.nio.charset.*;
import java.nio.file.*;
import java.util.*;

public class Strings {
    static boolean paired(String s) {
        for (int i = 0; i < s.length(); i++) {
            char c = s.charAt(i);
            if (Character.isLowSurrogate(c)) return false;
            if (Character.isHighSurrogate(c)) {
                if (i + 1 == s.length() || !Character.isLowSurrogate(s.charAt(i + 1))) return false;
                i++;
            }
        }
        return true;
    }

    static byte[] withLength(byte[] b, int n) {
        byte[] framed = new byte[n + 2];
        framed[0] = (byte) (n >> 8);
        framed[1] = (byte) n;
        System.arraycopy(b, 0, framed, 2, n);
        return framed;
    }

    static byte[] written(String s) throws IOException {
        ByteArrayOutputStream out = new ByteArrayOutputStream();
        new DataOutputStream(out).writeUTF(s);
        return out.toByteArray();
    }

    static boolean modified(byte[] b, int n) throws IOException {
        byte[] framed = withLength(b, n);
        try {
            String s = new DataInputStream(new ByteArrayInputStream(framed)).readUTF();
            return paired(s) && Arrays.equals(written(s), framed);
        } catch (UTFDataFormatException e) {
            return false;
        }
    }

    static String decoded(byte[] b, int n) {
        try {
            return StandardCharsets.UTF_8.newDecoder().onMalformedInput(CodingErrorAction.REPORT)
                .onUnmappableCharacter(CodingErrorAction.REPORT).decode(ByteBuffer.wrap(b, 0, n)).toString();
        } catch (CharacterCodingException e) {
            return null;
        }
    }

    static String place(byte[] b, boolean modified) throws IOException {
        for (int n = b.length; n >= 0; n--) {
            if (modified ? modified(b, n) : decoded(b, n) != null) return n == b.length ? "ok" : "" + n;
        }
        throw new IllegalStateException("the empty string is refused");
    }

    static String hex(byte[] b, int from) {
        StringBuilder s = new StringBuilder();
        for (int i = from; i < b.length; i++) s.append(String.format("%02X", b[i]));
        return s.toString();
    }

    static final int[] BYTES = {0x00, 0x01, 0x41, 0x7F, 0x80, 0x81, 0x9F, 0xA0, 0xAF, 0xB0, 0xBD, 0xBF, 0xC0, 0xC1, 0xC2, 0xDF, 0xE0, 0xE1,
        0xED, 0xEE, 0xEF, 0xF0, 0xF4, 0xF5, 0xF8, 0xFF};
    static final int[] FEW = {0x00, 0x61, 0x80, 0x8F, 0x90, 0x9F, 0xA0, 0xBF, 0xC2, 0xE0, 0xED, 0xEF, 0xF0, 0xF4};
    static final int[] SCALARS = {0, 1, 0x61, 0x7F, 0x80, 0x7FF, 0x800, 0xFFF, 0x1000, 0x20AC, 0xD7FF, 0xE000, 0xFFFD, 0xFFFF, 0x10000, 0x103FF,
        0x10400, 0x1F600, 0xFFFFF, 0x100000, 0x10FFFF};

    // Each sort of sequence once, good and bad.
    static final String[] EXAMPLES = {
        // one, two and three bytes; two halves; the last scalar value
        "617F01", "C080", "C280DFBF", "E0A080ED9FBFEE8080EFBFBF", "EDA0BDEDB880", "EDAFBFEDBFBF",
        // a zero byte; four bytes; a byte that begins nothing
        "6100", "6162F09F9880", "80", "61FF",
        // overlong forms: of one byte in two, of one and of two in three, of three in four
        "C080C081", "61C1BF", "61E08080", "61E09FBF", "61F0808080", "61F08FBFBF",
        // a lone low half; a lone high half at the end, before a letter, before a high half, before a cut low half
        "61EDB880", "61EDA0BD", "EDA0BD61", "EDA0BDEDA0BD", "EDA0BDEDB8",
        // cut sequences, at the end and before another byte
        "61C3", "61E4B8", "61F09F98", "C361", "E4B861", "E46180", "F09F9861",
        // UTF-8: a zero byte, two and three and four bytes, C0 80, above U+10FFFF, five bytes
        "0061", "C280E0A080", "F09F9880F48FBFBF", "61C080", "61F4908080", "F888808080",
    };

    static final LinkedHashSet<String> cases = new LinkedHashSet<>();

    static void put(byte[] b) { cases.add(hex(b, 0)); }

    static void all(int[] from, int length) {
        int[] at = new int[length];
        while (true) {
            byte[] b = new byte[length];
            for (int i = 0; i < length; i++) b[i] = (byte) from[at[i]];
            put(b);
            int i = length - 1;
            while (i >= 0 && ++at[i] == from.length) at[i--] = 0;
            if (i < 0) return;
        }
    }

    static byte[] join(byte[]... parts) {
        ByteArrayOutputStream out = new ByteArrayOutputStream();
        for (byte[] p : parts) out.writeBytes(p);
        return out.toByteArray();
    }

    static byte[] unit(int u) {
        return new byte[] {(byte) (0xE0 | u >> 12), (byte) (0x80 | u >> 6 & 63), (byte) (0x80 | u & 63)};
    }

    static byte[] text(Random r, boolean modified) throws IOException {
        StringBuilder s = new StringBuilder();
        for (int i = r.nextInt(60); i >= 0; i--) {
            int c = r.nextInt(3) == 0 ? SCALARS[r.nextInt(SCALARS.length)] : r.nextInt(4) == 0 ? 0x80 + r.nextInt(0x3000) : 0x20 + r.nextInt(0x5F);
            s.appendCodePoint(c);
        }
        return modified ? Arrays.copyOfRange(written(s.toString()), 2, written(s.toString()).length) : s.toString().getBytes(StandardCharsets.UTF_8);
    }

    public static void main(String[] args) throws IOException {
        Random r = new Random(20261115);
        put(new byte[0]);
        all(BYTES, 1);
        all(BYTES, 2);
        all(FEW, 3);
        for (int i = 0; i < 1500; i++) {
            byte[] b = new byte[4 + r.nextInt(4)];
            for (int k = 0; k < b.length; k++) b[k] = (byte) BYTES[r.nextInt(BYTES.length)];
            put(b);
        }
        // halves of pairs, alone, twice, in the wrong order, before and after others
        int[] halves = {0xD800, 0xD83D, 0xDBFF, 0xDC00, 0xDE00, 0xDFFF, 0xD7FF, 0xE000};
        for (int a : halves) for (int b : halves) {
            put(join(unit(a), unit(b)));
            put(join(new byte[] {0x61}, unit(a), new byte[] {0x62}, unit(b)));
            put(join(unit(a), unit(b), unit(a)));
        }
        // a byte of every sort at each place of plain runs, about the lengths at which blocks begin and end
        for (int length : new int[] {7, 8, 15, 16, 31, 32, 33, 63, 64, 65, 127, 128, 129, 160, 200}) {
            for (int at = 0; at < length; at += length < 70 ? 1 : 5) {
                byte[] b = new byte[length];
                Arrays.fill(b, (byte) 0x61);
                b[at] = (byte) new int[] {0x00, 0x80, 0xC3, 0xE2, 0xED, 0xFF}[at % 6];
                put(b);
                if (at + 3 <= length) {
                    byte[] c = new byte[length];
                    Arrays.fill(c, (byte) 0x7F);
                    System.arraycopy(unit(0x20AC), 0, c, at, 3);
                    put(c);
                }
            }
        }
        for (int i = 0; i < 1500; i++) {
            byte[] b = text(r, i % 2 == 0);
            put(b);
            byte[] damaged = b.clone();
            if (b.length > 0) damaged[r.nextInt(b.length)] = (byte) BYTES[r.nextInt(BYTES.length)];
            put(damaged);
            put(Arrays.copyOf(b, b.length - (b.length == 0 ? 0 : r.nextInt(Math.min(4, b.length)))));
        }
        for (String s : EXAMPLES) put(HexFormat.of().parseHex(s));
        Path folder = Path.of(args[0]);
        try (PrintWriter in = new PrintWriter(folder.resolve("stdin").toFile()); PrintWriter out = new PrintWriter(folder.resolve("stdout").toFile())) {
            for (String line : cases) {
                byte[] b = HexFormat.of().parseHex(line);
                String utf8 = place(b, false);
                in.print(line + "\n");
                out.print(place(b, true) + " " + utf8 + " " + (utf8.equals("ok") ? hex(written(decoded(b, b.length)), 2) : "-") + "\n");
            }
        }
        System.out.println(cases.size() + " cases");
    }
}
