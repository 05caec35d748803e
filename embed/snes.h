/* The console as a library; see docs/use/EMBEDDING.md for what is proved of its calls, and what a caller has to keep.
 *
 * snes_play plays a whole recording in one call. The other calls have a console that the caller keeps, and play it a frame
 * at a time: snes_begin, snes_frame for each frame, snes_reset for the reset button, snes_keep and snes_back for save
 * states, snes_end.
 *
 * In the repository, link libsnes_library.a with heap.c, which stands beside this header. Of the installed package, both are
 * in libbogtrun-snes: pkg-config --cflags --libs bogtrun-snes. */
#ifndef SNES_H
#define SNES_H

#include <stddef.h>
#include <stdint.h>

#ifdef __cplusplus
extern "C" {
#endif

/* The bytes of a frame: 239 rows of 512 dots, each a 16-bit number, low byte first: red in its low five bits, green in
 * the next five, blue in the five above. */
#define SNES_FRAME_BYTES 244736

/* Room for the sound of a frame, in bytes, in both regions: at most 640 samples. A sample is two signed 16-bit numbers,
 * left then right, low byte first, 32,000 a second. */
#define SNES_FRAME_SOUND_ROOM 2560

/* The most frames of snes_play, and of a path: ten minutes in NTSC. */
#define SNES_MOST_FRAMES 36000

/* The most save states of a console. */
#define SNES_MOST_SLOTS 64

/* The regions of a console. NTSC has 236,250,000 / 11 / (262 * 1,364), about 60.0985 frames a second. PAL has
 * 21,281,370 / (312 * 1,364), about 50.0070. */
#define SNES_NTSC 0
#define SNES_PAL 1

/* The buttons of a pad. The low four bits of a pad count as 0, as in a script. */
#define SNES_BUTTON_B 0x8000
#define SNES_BUTTON_Y 0x4000
#define SNES_BUTTON_SELECT 0x2000
#define SNES_BUTTON_START 0x1000
#define SNES_BUTTON_UP 0x0800
#define SNES_BUTTON_DOWN 0x0400
#define SNES_BUTTON_LEFT 0x0200
#define SNES_BUTTON_RIGHT 0x0100
#define SNES_BUTTON_A 0x0080
#define SNES_BUTTON_X 0x0040
#define SNES_BUTTON_L 0x0020
#define SNES_BUTTON_R 0x0010

/* Statuses: up to 5 the exit statuses of the program for the same answers. */
enum snes_status {
  SNES_OK = 0,        /* done */
  SNES_FRAMES = 1,    /* snes_play, snes_begin: a number of frames out of bounds; snes_frame: the path has no frame left */
  SNES_REFUSED = 3,   /* an input, a region, a slot or a reset was not accepted */
  SNES_TOO_SHORT = 4, /* video or sound does not fit into its room */
  SNES_NO_MEMORY = 5, /* malloc gave none */
  SNES_EMPTY = 6,     /* the console has not begun, or has ended */
  SNES_FULL = 7,      /* the console has begun, and has not ended */
};

/* Causes, and what `place` says of each. */
enum snes_cause {
  SNES_CART_TOO_SHORT = 1,   /* the cartridge's image has fewer than 32,768 bytes */
  SNES_CART_TOO_LONG = 2,    /* it has more than 4,194,304 */
  SNES_CART_NO_HEADER = 3,   /* neither a LoROM nor a HiROM header stands in it */
  SNES_CART_COPROCESSOR = 4, /* its header names another chip; place: the chip byte */
  SNES_CART_RAM_SIZE = 5,    /* it asks for more than 128 KiB of RAM; place: the size byte */
  SNES_BOOT_SIZE = 6,        /* the boot ROM hasn't 64 bytes */
  SNES_TABLE = 7,            /* place: 512 where the table hasn't 1,024 bytes, else its first entry above 2047 */
  SNES_SCRIPT = 8,           /* place: 0 where the script has more than 1,048,576 bytes, else its first bad line */
  SNES_VIDEO_TOO_SHORT = 9,
  SNES_SOUND_TOO_SHORT = 10,
  SNES_TOO_MANY_FRAMES = 11,
  SNES_WANT_OF_MEMORY = 12,
  SNES_NO_CONSOLE = 13,      /* the cause of SNES_EMPTY */
  SNES_BAD_REGION = 14,      /* neither SNES_NTSC nor SNES_PAL */
  SNES_BAD_SLOT = 15,        /* more than 64 slots were asked for */
  SNES_CONSOLE_HELD = 16,    /* the cause of SNES_FULL */
};

struct snes_answer {
  uint32_t cause;     /* 0 at SNES_OK */
  uint32_t place;     /* 0 where a cause has none */
  size_t video_count; /* at SNES_OK the bytes of video, else 0 */
  size_t sound_count; /* at SNES_OK the bytes of sound, else 0 */
};

/* Plays a cartridge for so many frames, as `snes serial` does.
 *
 * Inputs: the bytes of the files that `snes serial` takes, each a pointer and its size in bytes. Outputs: a pointer and
 * the room behind it in bytes. At SNES_OK both hold the whole output in front, and behind it what they held before. At
 * SNES_TOO_SHORT both hold first bytes of it (how many is not told), and the named one is too short for all of it. At every
 * other status they are as they were.
 *
 * While it plays it takes by malloc a few megabytes, and as much as the cartridge and both rooms have; all is given back.
 *
 * The caller keeps, and nothing checks: no pointer is null, also where its size is 0; outputs and `answer` overlap
 * neither each other nor an input; nothing else touches them during the call. Calls in several threads at once are
 * fine: the library has no state. */
uint32_t snes_play(const uint8_t *cart, size_t cart_size,
                   const uint8_t *boot, size_t boot_size,
                   const uint8_t *table, size_t table_size,
                   const uint8_t *script, size_t script_size,
                   uint32_t frames,
                   uint8_t *video, size_t video_room,
                   uint8_t *sound, size_t sound_room,
                   struct snes_answer *answer);

/* A console that the caller keeps. It is all zeros at first: struct snes_console console = {0, NULL}.
 *
 * The caller keeps, and nothing checks: C reads and writes neither field, and makes no copy to use in its place. Each
 * console is in one call at a time. Two calls of one console may be in different threads, if a lock, the start or join of
 * a thread, or a sequentially consistent atomic orders them. The calls of different consoles may run in several threads
 * at once. */
struct snes_console {
  uint32_t full;
  uint8_t *at;
};

/* Begins: switches a console on with a cartridge. The inputs are read in the call, and are the caller's again after it.
 *
 * A boot ROM of size 0 stands for the free one, and a table of size 0 for the free one, those of `./scene`. `region` is
 * SNES_NTSC or SNES_PAL. `most` is how many frames a path may last, 1 to 36,000. `slots` is how many save states the
 * console has room for, 0 to 64. All memory of the console is allocated here.
 *
 * At every status but SNES_OK the console is as it was; `answer` has the cause. */
uint32_t snes_begin(struct snes_console *console,
                    const uint8_t *cart, size_t cart_size,
                    const uint8_t *boot, size_t boot_size,
                    const uint8_t *table, size_t table_size,
                    uint32_t region,
                    uint32_t most,
                    uint32_t slots,
                    struct snes_answer *answer);

/* Plays a frame while the pads have these buttons down.
 *
 * Rooms of SNES_FRAME_BYTES and SNES_FRAME_SOUND_ROOM serve every frame. At SNES_OK the frame's picture is at the front of
 * `video`, and its samples are at the front of `sound`. What is behind them is as it was. `answer` has the bytes of both.
 * The frames 1 to n of a path have the bytes that snes_play gives for n frames and any script of version 1 or 2 that gives
 * each frame the same pads, in this region and with a reset before the frames before which the button was pressed.
 *
 * At every other status the console and both rooms are as they were. SNES_FRAMES says that the path has `most` frames:
 * go back to a slot, or end and begin again. */
uint32_t snes_frame(struct snes_console *console,
                    uint16_t pad1,
                    uint16_t pad2,
                    uint8_t *video, size_t video_room,
                    uint8_t *sound, size_t sound_room,
                    struct snes_answer *answer);

/* Presses the reset button, so that the next frame begins with a reset. SNES_REFUSED says that no frame of the path was
 * played, or that the button was just pressed. */
uint32_t snes_reset(struct snes_console *console);

/* Keeps the state of the console in a slot, in place of what the slot had. SNES_REFUSED says that there is no such slot. */
uint32_t snes_keep(struct snes_console *console, uint32_t slot);

/* Goes back to the state that a slot has. The path is then that of the slot. A slot in which nothing was kept has the state
 * that snes_begin left. SNES_REFUSED says that there is no such slot. */
uint32_t snes_back(struct snes_console *console, uint32_t slot);

/* Ends: frees all memory of the console. It can begin again. At SNES_EMPTY there was nothing to end. */
uint32_t snes_end(struct snes_console *console);

#ifdef __cplusplus
}
#endif

#endif
