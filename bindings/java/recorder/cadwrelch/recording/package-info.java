/**
 * Records the calls of a cache of any provider of {@code javax.cache}, with the calls that reach its loader and its
 * writer, as the text {@code history 1}: whether a cache may behave so is what {@code jcache check} says.
 *
 * <p>{@link cadwrelch.recording.CallRecorder} is all that a user needs. It needs the API of {@code javax.cache} alone,
 * and no native library.
 *
 * <p>{@code CallHandler} stands round a cache, {@code RecordedLoader}, {@code RecordedWriter} and
 * {@code RecordedProcessor} round what the cache asks. Each notes lines in the {@code Lines} of its thread.
 * {@code Failures} names what was thrown. {@code LoadOwners} says, when all is written, whose the loads are that ran on
 * threads of the provider.
 */
package cadwrelch.recording;
