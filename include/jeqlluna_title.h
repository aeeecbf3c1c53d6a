/* Where the fields of the parameters, of an update's input and of a reply stand: offsets and sizes in bytes, and values by name.
 * All numbers are little-endian. A record's offsets count from its first byte. docs/FORMATS.md says in which sequence the records stand.
 * Made by formats/make from formats/table.txt; C99 and C++98, no code. */
#ifndef JEQLLUNA_TITLE_H
#define JEQLLUNA_TITLE_H

/* The parameters of an open: how many of everything there is. Of fewer bytes, a field that is not whole is 0; bytes behind are not read. */
#define JEQLLUNA_PARAMETERS_SIZE 0x34 /* bytes of the record */
#define JEQLLUNA_PARAMETERS_SAMPLE_RATE 0x00 /* u32: Frames per second of the output; 0 counts as 1. */
#define JEQLLUNA_PARAMETERS_SAMPLE_COUNT 0x04 /* u32: Frames of one render, 1 to 256. */
#define JEQLLUNA_PARAMETERS_MIX_BUFFERS 0x08 /* u32: Rows of samples that all mixes share, at most 96; what is sent beyond them is lost. */
#define JEQLLUNA_PARAMETERS_SUB_MIXES 0x0c /* u32: Mixes beside the final mix, at most 31. */
#define JEQLLUNA_PARAMETERS_VOICES 0x10 /* u32: Voices, and channel resources, at most 64. */
#define JEQLLUNA_PARAMETERS_SINKS 0x14 /* u32: Sinks, at most 8. */
#define JEQLLUNA_PARAMETERS_EFFECTS 0x18 /* u32: Effects, at most 64; they are answered, and do nothing to the sound. */
#define JEQLLUNA_PARAMETERS_SPLITTERS 0x24 /* u32: Splitters, at most 32. */
#define JEQLLUNA_PARAMETERS_SPLITTER_DESTINATIONS 0x28 /* u32: Destinations that all splitters share, at most 128. */
/* u32: The revision word, "REV" and a character; the revision is that character less "0". One below "0" counts as above every revision. */
#define JEQLLUNA_PARAMETERS_REVISION 0x30

/* The head of an update's input: how many bytes each section has. A section that reaches past the input's end is empty. */
#define JEQLLUNA_UPDATE_HEADER_SIZE 0x40 /* bytes of the record */
#define JEQLLUNA_UPDATE_HEADER_BEHAVIOUR_SIZE 0x04 /* u32: Bytes of the behaviour section. */
#define JEQLLUNA_UPDATE_HEADER_POOLS_SIZE 0x08 /* u32: Bytes of the pools. */
#define JEQLLUNA_UPDATE_HEADER_VOICES_SIZE 0x0c /* u32: Bytes of the voices, which stand behind the channel resources. */
#define JEQLLUNA_UPDATE_HEADER_CHANNEL_RESOURCES_SIZE 0x10 /* u32: Bytes of the channel resources. */
#define JEQLLUNA_UPDATE_HEADER_EFFECTS_SIZE 0x14 /* u32: Bytes of the effects. */
#define JEQLLUNA_UPDATE_HEADER_MIXES_SIZE 0x18 /* u32: Bytes of the mixes, with their header from revision 7 on. */
#define JEQLLUNA_UPDATE_HEADER_SINKS_SIZE 0x1c /* u32: Bytes of the sinks. */

/* Passed over: nothing of it is read, it may have any size. */
#define JEQLLUNA_BEHAVIOUR_LEAST 0x0 /* bytes that it has at least */

/* A memory pool: one for each wave buffer of each voice and for each effect. The renderer keeps nothing of it and answers its state. */
#define JEQLLUNA_POOL_SIZE 0x20 /* bytes of the record */
#define JEQLLUNA_POOL_STATE 0x10 /* u32: What the title asks for; the reply grants it, and gives any other number back. */
#define JEQLLUNA_POOL_STATE_DETACH 2 /* value: asks to be detached; the reply says 3 */
#define JEQLLUNA_POOL_STATE_ATTACH 4 /* value: asks to be attached; the reply says 5 */

/* The gains of one channel of a voice. Resource k has record k; a voice says which resource each of its channels takes. */
#define JEQLLUNA_CHANNEL_RESOURCE_SIZE 0x70 /* bytes of the record */
/* f32[24]: Gain to each buffer of the mix that the voice goes to; a render moves from the last gains to these. */
#define JEQLLUNA_CHANNEL_RESOURCE_GAINS 0x04

/* A voice. Voice k has record k; one whose record is missing or not in use is silent, and keeps the rest of its state. An input of no bytes
 * leaves all voices as they are. */
#define JEQLLUNA_VOICE_SIZE 0x170 /* bytes of the record */
#define JEQLLUNA_VOICE_IS_NEW 0x008 /* flag: The voice starts from nothing: queue, position and sound of the one before are forgotten. */
#define JEQLLUNA_VOICE_IN_USE 0x009 /* flag: Whether the voice is in use; if not, the rest of the record is not read. */
#define JEQLLUNA_VOICE_PLAY 0x00a /* u8: Whether it plays; any value but the first two pauses it. */
#define JEQLLUNA_VOICE_PLAY_START 0 /* value: plays */
#define JEQLLUNA_VOICE_PLAY_STOP 1 /* value: stops at the next render: its buffers count as consumed, its position is forgotten */
#define JEQLLUNA_VOICE_PLAY_PAUSE 2 /* value: stands still */
#define JEQLLUNA_VOICE_FORMAT 0x00b /* u8: What its samples are; any other number plays silence of the same length. */
#define JEQLLUNA_VOICE_FORMAT_PCM_INT16 2 /* value: 16-bit numbers */
#define JEQLLUNA_VOICE_FORMAT_PCM_FLOAT 5 /* value: 32-bit floats, of which 1 is 32768 */
#define JEQLLUNA_VOICE_FORMAT_ADPCM 6 /* value: DSP-ADPCM; only the first channel sounds */
/* u32: Samples per second of its sound; over the output's rate, times the pitch, it is the step, at most 16. */
#define JEQLLUNA_VOICE_SAMPLE_RATE 0x00c
#define JEQLLUNA_VOICE_CHANNELS 0x018 /* u32: Channels of its sound, 1 to 6; less counts as 1, more as 6. */
#define JEQLLUNA_VOICE_PITCH 0x01c /* f32: Factor of the step; a step that is not finite counts as 0. */
#define JEQLLUNA_VOICE_VOLUME 0x020 /* f32: Volume of all channels; a render moves from the last volume to this one. */
#define JEQLLUNA_VOICE_QUEUED 0x03c /* u32: 0 keeps the voice still; any other number lets it play the buffers that it has. */
#define JEQLLUNA_VOICE_BASE_INDEX 0x040 /* u32, from revision 5: The slot of the oldest wave buffer, modulo 4: a flush begins there. */
#define JEQLLUNA_VOICE_COEFFICIENTS 0x048 /* u64: Address of the 32 bytes of ADPCM coefficients, eight pairs of 16-bit numbers. */
#define JEQLLUNA_VOICE_MIX 0x058 /* i32: The mix that it goes to, by number. */
#define JEQLLUNA_VOICE_MIX_NONE 0x7fffffff /* value: goes to its splitter, if it has one */
#define JEQLLUNA_VOICE_SPLITTER 0x05c /* u32, from revision 2: The splitter that it goes to where it has no mix. */
#define JEQLLUNA_VOICE_SPLITTER_NONE 0xffffffff /* value: goes to no splitter */
#define JEQLLUNA_VOICE_WAVES 0x060 /* wave[4]: The four slots of its queue, played in turn. */
/* i32[6]: The channel resource of each channel; a negative number counts as 0, one too large as the last. */
#define JEQLLUNA_VOICE_CHANNEL_RESOURCES 0x140
/* u8, from revision 5: So many more wave buffers, from the base index on, are dropped at the next render, and counted as consumed. */
#define JEQLLUNA_VOICE_FLUSH 0x159
#define JEQLLUNA_VOICE_DECODING 0x15c /* u16, from revision 5: Bits that change how it plays. */
#define JEQLLUNA_VOICE_DECODING_RESET_ON_LOOP 1 /* value: at each loop the samples played begin at 0 again */
#define JEQLLUNA_VOICE_DECODING_OWN_RATE 2 /* value: the step is 1, whatever rate and pitch say */

/* A wave buffer, one of the four slots of a voice's record. It is taken in where it was not sent before and start and end lie within its
 * size. */
#define JEQLLUNA_WAVE_SIZE 0x38 /* bytes of the record */
#define JEQLLUNA_WAVE_ADDRESS 0x00 /* u64: Address of its bytes in sample memory. */
#define JEQLLUNA_WAVE_DATA_SIZE 0x08 /* u64: How many bytes it has; start and end must lie within them. */
#define JEQLLUNA_WAVE_START 0x10 /* u32: Its first sample. */
#define JEQLLUNA_WAVE_END 0x14 /* u32: The sample behind its last one. */
#define JEQLLUNA_WAVE_LOOPING 0x18 /* flag: At its end it begins again. */
#define JEQLLUNA_WAVE_END_OF_STREAM 0x19 /* flag: At its end the samples played begin at 0 again. */
#define JEQLLUNA_WAVE_SENT_BEFORE 0x1a /* flag: The slot keeps what an earlier update put there; the rest of the record is not read. */
/* i32, from revision 8: How often a looping buffer begins again; negative, and before revision 8, without end. */
#define JEQLLUNA_WAVE_LOOP_COUNT 0x1c
#define JEQLLUNA_WAVE_CONTEXT 0x20 /* u64: Address of the 6 bytes of ADPCM context with which it begins each time, 0 for none. */
/* u32, from revision 8: First sample of a loop; where it or the loop's end is 0, or they are out of sequence, the loop is the whole buffer.
 * */
#define JEQLLUNA_WAVE_LOOP_START 0x30
#define JEQLLUNA_WAVE_LOOP_END 0x34 /* u32, from revision 8: The sample behind a loop's last one. */

/* An effect. Each has the section's size divided by the number of effects. The sound passes through unchanged. */
#define JEQLLUNA_EFFECT_LEAST 0x3 /* bytes that it has at least */
#define JEQLLUNA_EFFECT_ENABLED 0x02 /* flag: Whether it is enabled, for the reply to say. */

/* The head of the splitters, right behind the effects. Where the magic is another, or the parameters have no splitter or no destination,
 * the section has no byte. */
#define JEQLLUNA_SPLITTER_HEADER_SIZE 0x20 /* bytes of the record */
#define JEQLLUNA_SPLITTER_HEADER_MAGIC 0x00 /* u32: The section's mark. */
#define JEQLLUNA_SPLITTER_HEADER_MAGIC_SNDH 0x48444e53 /* value: the characters "SNDH" */
#define JEQLLUNA_SPLITTER_HEADER_SPLITTER_COUNT 0x04 /* u32: At most so many splitters follow. */
#define JEQLLUNA_SPLITTER_HEADER_DESTINATION_COUNT 0x08 /* u32: At most so many destinations follow them. */

/* A splitter's list of destinations. Records follow one another up to one without the magic; 12 bytes of padding are passed over where no
 * magic stands, also behind the last one. */
#define JEQLLUNA_SPLITTER_SIZE 0x10 /* bytes of the record, and 4 bytes for each of its destination count */
#define JEQLLUNA_SPLITTER_PADDING 0xc /* bytes that may follow it, at most */
#define JEQLLUNA_SPLITTER_MAGIC 0x00 /* u32: The record's mark. */
#define JEQLLUNA_SPLITTER_MAGIC_SNDI 0x49444e53 /* value: the characters "SNDI" */
#define JEQLLUNA_SPLITTER_ID 0x04 /* i32: The splitter's number; where there is none such, the record is passed over. */
#define JEQLLUNA_SPLITTER_DESTINATION_COUNT 0x0c /* u32: How many entries follow, at most as many as the parameters have destinations. */
/* i32[destination_count]: The destinations' numbers, a negative one counts as 0; channel c of n takes entries c, c + n, c + 2n and so on.
 * */
#define JEQLLUNA_SPLITTER_DESTINATIONS 0x10

/* Where a splitter's entry sends. The second record's place tells how far apart they are; the section ends at the next multiple of 16
 * bytes. */
#define JEQLLUNA_DESTINATION_SIZE 0x70 /* bytes of the record */
#define JEQLLUNA_DESTINATION_PADDING 0x90 /* bytes that may follow it, at most */
#define JEQLLUNA_DESTINATION_MAGIC 0x00 /* u32: The record's mark. */
#define JEQLLUNA_DESTINATION_MAGIC_SNDD 0x44444e53 /* value: the characters "SNDD" */
#define JEQLLUNA_DESTINATION_ID 0x04 /* i32: The destination's number; where there is none such, the record is passed over. */
/* f32[24]: Gain to each buffer of the mix; for a voice a render moves from the last gains to these. */
#define JEQLLUNA_DESTINATION_GAINS 0x08
#define JEQLLUNA_DESTINATION_MIX 0x68 /* i32: The mix that it sends to. */
#define JEQLLUNA_DESTINATION_MIX_NONE 0x7fffffff /* value: sends nowhere */
#define JEQLLUNA_DESTINATION_IN_USE 0x6c /* flag: Whether it sends; where it comes into use the last gains are these. */

/* The head of the mixes, from revision 7 on. */
#define JEQLLUNA_MIX_HEADER_SIZE 0x20 /* bytes of the record */
#define JEQLLUNA_MIX_HEADER_COUNT 0x04 /* u32: How many mixes follow: only those that change need to be sent. */

/* A mix. Mix 0 is the final one, whose buffers the sink takes. Before revision 7 mix k has record k, from then on a record names its mix.
 * */
#define JEQLLUNA_MIX_SIZE 0x930 /* bytes of the record */
#define JEQLLUNA_MIX_VOLUME 0x000 /* f32: Volume of everything that it sends; of the final mix, of its buffers. */
/* u32: How many of the mix buffers it has, at most 24; they stand behind those of the mixes before it, also of unused ones. */
#define JEQLLUNA_MIX_BUFFER_COUNT 0x008
#define JEQLLUNA_MIX_IN_USE 0x00c /* flag: Whether the mix is in use; if not, the rest of the record but its number is not read. */
/* i32, from revision 7: The mix's number, a negative one counts as 0; where there is none such, the record is passed over. */
#define JEQLLUNA_MIX_ID 0x010
#define JEQLLUNA_MIX_GAINS 0x024 /* f32[576]: Gain from its buffer i to the destination mix's buffer j at 24 i + j. */
#define JEQLLUNA_MIX_DESTINATION 0x924 /* i32: The mix that it goes to; one that doesn't reach mix 0 is not run. */
#define JEQLLUNA_MIX_DESTINATION_NONE 0x7fffffff /* value: goes to its splitter, if it has one */
/* u32: The splitter that it goes to where it has no destination; entry k takes buffer k, going round. */
#define JEQLLUNA_MIX_SPLITTER 0x928
#define JEQLLUNA_MIX_SPLITTER_NONE 0xffffffff /* value: goes to no splitter */

/* A sink. Sink k has record k. The first device in use gives the frames; without one they are 0. */
#define JEQLLUNA_SINK_SIZE 0x140 /* bytes of the record */
#define JEQLLUNA_SINK_KIND 0x000 /* u8: What it is; of one that is no device only this and the next byte are read. */
#define JEQLLUNA_SINK_KIND_DEVICE 1 /* value: a device, the output */
#define JEQLLUNA_SINK_IN_USE 0x001 /* flag: Whether it is in use. */
/* u32: How many inputs it has, at most 6: none is silence, 1 goes to both sides, of 2 to 5 the first two are left and right, 6 are mixed
 * down. */
#define JEQLLUNA_SINK_INPUT_COUNT 0x120
#define JEQLLUNA_SINK_INPUTS 0x124 /* u8[6]: The final mix's buffer for each input: left, right, centre, low, back left, back right. */
#define JEQLLUNA_SINK_OWN_DOWNMIX 0x12b /* flag: The factors below are taken; otherwise they are 1, 0.707, 0.251, 0.707. */
#define JEQLLUNA_SINK_DOWNMIX 0x12c /* f32[4]: Factors of front, centre, low and back where six inputs are mixed down. */

/* The head of a reply: how many bytes each section has, and the whole. */
#define JEQLLUNA_REPLY_HEADER_SIZE 0x40 /* bytes of the record */
#define JEQLLUNA_REPLY_HEADER_REVISION 0x00 /* u32: The revision word of the parameters. */
#define JEQLLUNA_REPLY_HEADER_BEHAVIOUR_SIZE 0x04 /* u32: Bytes of the behaviour section, the last but one. */
#define JEQLLUNA_REPLY_HEADER_POOLS_SIZE 0x08 /* u32: Bytes of the pools. */
#define JEQLLUNA_REPLY_HEADER_VOICES_SIZE 0x0c /* u32: Bytes of the voices. */
/* u32: Bytes of the effects: what the expected size leaves, rounded down to as many for each. */
#define JEQLLUNA_REPLY_HEADER_EFFECTS_SIZE 0x14
#define JEQLLUNA_REPLY_HEADER_SINKS_SIZE 0x1c /* u32: Bytes of the sinks. */
#define JEQLLUNA_REPLY_HEADER_PERFORMANCE_SIZE 0x20 /* u32: Bytes of the performance section. */
#define JEQLLUNA_REPLY_HEADER_INFO_SIZE 0x28 /* u32, from revision 5: Bytes of the render info, 0 before revision 5. */
#define JEQLLUNA_REPLY_HEADER_TOTAL_SIZE 0x3c /* u32: Bytes of the whole reply. */

/* What became of a memory pool. */
#define JEQLLUNA_REPLY_POOL_SIZE 0x10 /* bytes of the record */
/* u32: 5 where it asked to be attached, 3 where it asked to be detached, else the number that was sent; 0 where its record is missing. */
#define JEQLLUNA_REPLY_POOL_STATE 0x00
#define JEQLLUNA_REPLY_POOL_STATE_DETACHED 3 /* value: was asked to be detached */
#define JEQLLUNA_REPLY_POOL_STATE_ATTACHED 5 /* value: was asked to be attached */

/* How far a voice has played: 0 where it is not in use, or is new and no render has come to it with something queued. */
#define JEQLLUNA_REPLY_VOICE_SIZE 0x10 /* bytes of the record */
#define JEQLLUNA_REPLY_VOICE_PLAYED 0x00 /* u64: Samples that it has taken from its buffers. */
#define JEQLLUNA_REPLY_VOICE_CONSUMED 0x08 /* u32: Wave buffers that are done with, going round at 2^32. */

/* The state of an effect. Each has the section's size divided by the number of effects; nothing is written where that is 0. */
#define JEQLLUNA_REPLY_EFFECT_LEAST 0x1 /* bytes that it has at least */
#define JEQLLUNA_REPLY_EFFECT_STATE 0x00 /* u8: Whether the title enabled it. */
#define JEQLLUNA_REPLY_EFFECT_STATE_ENABLED 3 /* value: its record says so */
#define JEQLLUNA_REPLY_EFFECT_STATE_DISABLED 4 /* value: its record says no, or is missing */

/* Room for a sink. */
#define JEQLLUNA_REPLY_SINK_SIZE 0x20 /* bytes of the record */

/* Room for the performance section. */
#define JEQLLUNA_REPLY_PERFORMANCE_SIZE 0x10 /* bytes of the record */

/* Room for the behaviour section: no error is told. */
#define JEQLLUNA_REPLY_BEHAVIOUR_SIZE 0xb0 /* bytes of the record */

/* Render info, from revision 5 on. */
#define JEQLLUNA_REPLY_INFO_SIZE 0x10 /* bytes of the record */
#define JEQLLUNA_REPLY_INFO_ELAPSED 0x00 /* u64: Renders since the open. */

#endif
