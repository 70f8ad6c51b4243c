import java.nio.ByteBuffer;
import java.nio.charset.StandardCharsets;
import java.util.LinkedHashMap;
import java.util.Map;

/** The headers that an application writes on each output record: of which input it is an output (docs/APPLICATION.md). */
final class Claim {
  private Claim() {}

  /**
   * Output number {@code output} of the {@code of} outputs of the record at {@code offset} of a partition of {@code topic}; 0 of
   * 0 is the note that it has none. A ByteBuffer is big-endian unless it is told otherwise.
   */
  static Map<String, byte[]> of(String topic, int partition, long offset, int output, int of) {
    Map<String, byte[]> headers = new LinkedHashMap<>();
    headers.put("eo.topic", topic.getBytes(StandardCharsets.US_ASCII));
    headers.put("eo.partition", int32(partition));
    headers.put("eo.offset", ByteBuffer.allocate(8).putLong(offset).array());
    headers.put("eo.output", int32(output));
    headers.put("eo.of", int32(of));
    return headers;
  }

  private static byte[] int32(int number) {
    return ByteBuffer.allocate(4).putInt(number).array();
  }
}
