import java.io.BufferedOutputStream;
import java.io.BufferedReader;
import java.io.File;
import java.io.FileDescriptor;
import java.io.FileOutputStream;
import java.io.IOException;
import java.io.InputStreamReader;
import java.io.PrintStream;
import java.nio.ByteBuffer;
import java.nio.charset.StandardCharsets;
import java.util.Arrays;
import java.util.zip.DataFormatException;
import org.HdrHistogram.EncodableHistogram;
import org.HdrHistogram.Histogram;
import org.HdrHistogram.HistogramIterationValue;
import org.HdrHistogram.HistogramLogReader;

/** The driver of Java's HdrHistogram: reads the commands that driver.h describes, and prints a line for each. */
public class Peer {
    private static Histogram h = new Histogram(3);
    private static final StringBuilder out = new StringBuilder();

    private static void pair(long value, long count) {
        out.append(out.length() == 0 ? "" : " ").append(value).append(':').append(count);
    }

    private static long[] numbers(String[] words) {
        return Arrays.stream(words)
            .skip(1)
            .flatMap(word -> Arrays.stream(word.split(":")))
            .mapToLong(Long::parseLong)
            .toArray();
    }

    private static void fill(long[] pairs) {
        int done = 0;
        for (int i = 0; i < pairs.length; i += 2) {
            try {
                h.recordValueWithCount(pairs[i], pairs[i + 1]);
                done++;
            } catch (ArrayIndexOutOfBoundsException error) {
                // The value has no bin.
            }
        }
        out.append(done);
    }

    private static void fillCorrected(long[] triples) {
        int done = 0;
        for (int i = 0; i < triples.length; i += 3) {
            for (long n = 0; n < triples[i + 1]; n++) {
                h.recordValueWithExpectedInterval(triples[i], triples[i + 2]);
            }
            done++;
        }
        out.append(done);
    }

    private static void correct(long interval) {
        int digits = h.getNumberOfSignificantValueDigits();
        Histogram sum = new Histogram(h.getLowestDiscernibleValue(), h.getHighestTrackableValue(), digits);
        sum.addWhileCorrectingForCoordinatedOmission(h, interval);
        h = sum;
        out.append("ok");
    }

    private static void classOf(long value) {
        out.append(h.lowestEquivalentValue(value)).append(' ').append(h.highestEquivalentValue(value)).append(' ')
            .append(h.medianEquivalentValue(value)).append(' ').append(h.nextNonEquivalentValue(value)).append(' ')
            .append(h.sizeOfEquivalentValueRange(value));
    }

    private static void steps(Iterable<HistogramIterationValue> steps) {
        for (HistogramIterationValue step : steps) {
            pair(step.getValueIteratedTo(), step.getCountAddedInThisIterationStep());
        }
    }

    /** Prints bytes that a call has put into a buffer, up to its length. */
    private static void hex(ByteBuffer buffer, int length) {
        for (int i = 0; i < length; i++) {
            out.append(Character.forDigit(buffer.get(i) >> 4 & 15, 16));
            out.append(Character.forDigit(buffer.get(i) & 15, 16));
        }
    }

    private static ByteBuffer buffer() {
        return ByteBuffer.allocate(h.getNeededByteBufferCapacity() + 1024);
    }

    private static void encode(boolean compressed) {
        ByteBuffer buffer = buffer();
        hex(buffer, compressed ? h.encodeIntoCompressedByteBuffer(buffer) : h.encodeIntoByteBuffer(buffer));
    }

    /** The last digit of the version of compressed bytes is even in V1 and V2, and odd in V0. */
    private static boolean isCompressed(int cookie) {
        int base = cookie & ~0xf0;
        return base == 0x1c849304 || base == 0x1c849302 || base == 0x1c849309;
    }

    private static void decode(String digits) throws DataFormatException {
        ByteBuffer buffer = ByteBuffer.allocate(digits.length() / 2);
        for (int i = 0; i < buffer.capacity(); i++) {
            buffer.put(i, (byte) Integer.parseInt(digits.substring(2 * i, 2 * i + 2), 16));
        }
        if (isCompressed(buffer.getInt(0))) {
            h = Histogram.decodeFromCompressedByteBuffer(buffer, 0);
        } else {
            h = Histogram.decodeFromByteBuffer(buffer, 0);
        }
        out.append("ok");
    }

    private static String interval(Histogram of) {
        StringBuilder text = new StringBuilder(" ;");
        text.append(of.getTag() == null ? "" : of.getTag()).append(',').append(of.getStartTimeStamp()).append(',')
            .append(of.getEndTimeStamp() - of.getStartTimeStamp()).append(',');
        String separator = "";
        for (HistogramIterationValue step : of.recordedValues()) {
            text.append(separator).append(step.getValueIteratedTo()).append(':');
            text.append(step.getCountAtValueIteratedTo());
            separator = " ";
        }
        return text.toString();
    }

    /** Prints the intervals of a log, whose starts are absolute times in milliseconds. */
    private static void read(String path) throws IOException {
        StringBuilder intervals = new StringBuilder();
        try (HistogramLogReader reader = new HistogramLogReader(new File(path))) {
            try {
                EncodableHistogram next;
                while ((next = reader.nextIntervalHistogram()) != null) {
                    intervals.append(interval((Histogram) next));
                }
                intervals.append(reader.hasNext() ? " ;error: lines are left" : " ;end");
            } catch (RuntimeException error) {
                intervals.append(" ;error ").append(error.getClass().getSimpleName());
            }
            if (reader.getStartTimeSec() != 0) {
                out.append(Math.round(reader.getStartTimeSec() * 1000));
            }
        }
        out.append(intervals);
    }

    /** Runs a command of numbers. Returns false if it has another form. */
    private static boolean runNumbers(String name, long[] of) {
        switch (name) {
            case "new" -> {
                h = new Histogram(of[0], of[1], (int) of[2]);
                out.append("ok");
            }
            case "fill" -> fill(of);
            case "omit" -> fillCorrected(of);
            case "correct" -> correct(of[0]);
            case "total" -> out.append(h.getTotalCount());
            case "min" -> out.append(h.getMinValue());
            case "max" -> out.append(h.getMaxValue());
            case "q" -> out.append(h.getValueAtPercentile((double) of[0] / of[1]));
            case "mean" -> out.append(h.getMean());
            case "sd" -> out.append(h.getStdDeviation());
            case "at" -> out.append(h.getCountAtValue(of[0]));
            case "between" -> out.append(h.getCountBetweenValues(of[0], of[1]));
            case "below" -> out.append(h.getPercentileAtOrBelowValue(of[0]));
            case "class" -> classOf(of[0]);
            case "recorded" -> steps(h.recordedValues());
            case "linear" -> steps(h.linearBucketValues(of[0]));
            case "log" -> steps(h.logarithmicBucketValues(of[0], of[1]));
            case "ticks" -> steps(h.percentiles((int) of[0]));
            case "encode" -> encode(false);
            case "compress" -> encode(true);
            default -> {
                return false;
            }
        }
        return true;
    }

    private static void run(String line) {
        String[] words = line.split(" ");
        out.setLength(0);
        try {
            switch (words[0]) {
                case "decode" -> decode(words[1]);
                case "read" -> read(words[1]);
                default -> {
                    if (!runNumbers(words[0], numbers(words))) {
                        out.append('-');
                    }
                }
            }
        } catch (RuntimeException | DataFormatException | IOException error) {
            out.setLength(0);
            out.append("error ").append(error.getClass().getSimpleName());
        }
    }

    public static void main(String[] arguments) throws IOException {
        BufferedReader in = new BufferedReader(new InputStreamReader(System.in, StandardCharsets.UTF_8));
        FileOutputStream descriptor = new FileOutputStream(FileDescriptor.out);
        PrintStream printed = new PrintStream(new BufferedOutputStream(descriptor, 1 << 16), false, "UTF-8");
        for (String line = in.readLine(); line != null; line = in.readLine()) {
            run(line);
            printed.println(out);
        }
        printed.flush();
    }
}
