/* Plays a cartridge a frame at a time by the lines of a script of version 1 or 2, and writes its video and sound as
 * `snes serial` does:
 *
 *     frames [--boot FILE] [--table FILE] [--try FRAME] CART SCRIPT FRAMES VIDEO-FILE SOUND-FILE
 *
 * The boot ROM and the table are the free ones unless they are named. With --try the state at FRAME is kept, with the reset
 * button just pressed if the script presses it there. The rest is played in another way first: START is held on both pads,
 * and reset is pressed after a frame. Then, back at that state, it is played by the script. The files have what was played
 * by the script, so they are the same as without --try. */
#include <inttypes.h>
#include <stdio.h>
#include <stdlib.h>
#include <string.h>
#include "snes.h"

struct bytes {
  uint8_t *at;
  size_t size;
};

struct pads {
  uint16_t pad1, pad2;
};

static uint8_t video[SNES_FRAME_BYTES], sound[SNES_FRAME_SOUND_ROOM];
static struct pads pads[SNES_MOST_FRAMES];
static uint8_t resets[SNES_MOST_FRAMES + 1]; /* 1 for each frame that begins with a reset */
static uint32_t region = SNES_NTSC;

static struct bytes read_file(const char *name) {
  struct bytes file = {malloc(8 << 20), 0};
  FILE *from = fopen(name, "rb");
  if (!from || !file.at) exit(2);
  file.size = fread(file.at, 1, 8 << 20, from);
  fclose(from);
  return file;
}

/* No bytes, which stand for the free boot ROM or table. */
static struct bytes none(void) {
  struct bytes nothing = {malloc(1), 0};
  if (!nothing.at) exit(5);
  return nothing;
}

/* The pads and resets of each frame; after the last line no button is down. A line of another form ends the program, and so
 * does a reset that a script may not have. */
static void read_script(const char *name) {
  FILE *from = fopen(name, "r");
  char line[256];
  uint32_t to = 0, lines = 0, version = 1, count;
  struct pads one;
  if (!from) exit(2);
  for (; fgets(line, sizeof line, from); lines++) {
    line[strcspn(line, "\r\n")] = 0;
    if (lines == 0 && (!strcmp(line, "version 2 ntsc") || !strcmp(line, "version 2 pal"))) {
      version = 2;
      region = line[10] == 'p' ? SNES_PAL : SNES_NTSC;
    } else if (version == 2 && !strcmp(line, "reset")) {
      if (to == 0 || resets[to]) exit(3);
      resets[to] = 1;
    } else if (*line) {
      if (sscanf(line, "%" SCNu32 " %" SCNx16 " %" SCNx16, &count, &one.pad1, &one.pad2) != 3) exit(3);
      if (count > SNES_MOST_FRAMES - to) exit(3);
      while (count--) pads[to++] = one;
    }
  }
  fclose(from);
}

/* Says a status that is not SNES_OK, and ends with it. */
static void check(const char *call, uint32_t status, struct snes_answer answer) {
  if (status == SNES_OK) return;
  fprintf(stderr, "%s: status %u cause %u place %u\n", call, status, answer.cause, answer.place);
  exit(status);
}

static void play(struct snes_console *console, struct pads down, FILE *video_to, FILE *sound_to) {
  struct snes_answer answer = {0, 0, 0, 0};
  check("snes_frame", snes_frame(console, down.pad1, down.pad2, video, sizeof video, sound, sizeof sound, &answer), answer);
  if (video_to && fwrite(video, 1, answer.video_count, video_to) != answer.video_count) exit(4);
  if (sound_to && fwrite(sound, 1, answer.sound_count, sound_to) != answer.sound_count) exit(4);
}

/* Keeps the state in slot 0, plays the rest in another way, and goes back. */
static void try_another_way(struct snes_console *console, long frame, long frames) {
  struct snes_answer answer = {0, 0, 0, 0};
  check("snes_keep", snes_keep(console, 0), answer);
  for (long other = frame; other < frames; other++) {
    if (other == frame + 1) check("snes_reset", snes_reset(console), answer);
    play(console, (struct pads){SNES_BUTTON_START, SNES_BUTTON_START}, NULL, NULL);
  }
  check("snes_back", snes_back(console, 0), answer);
}

int main(int count, char **words) {
  struct bytes boot = none(), table = none();
  const char *at = "-1";
  struct snes_answer answer = {0, 0, 0, 0};
  struct snes_console console = {0, NULL};
  for (; count > 2 && !strncmp(words[1], "--", 2); count -= 2, words += 2) {
    if (!strcmp(words[1], "--boot")) free(boot.at), boot = read_file(words[2]);
    else if (!strcmp(words[1], "--table")) free(table.at), table = read_file(words[2]);
    else if (!strcmp(words[1], "--try")) at = words[2];
    else return 1;
  }
  if (count != 6) return 1;
  struct bytes cart = read_file(words[1]);
  long frames = strtol(words[3], NULL, 10), tried = strtol(at, NULL, 10);
  if (frames < 0 || frames > SNES_MOST_FRAMES) return 1;
  read_script(words[2]);
  FILE *video_to = fopen(words[4], "wb"), *sound_to = fopen(words[5], "wb");
  if (!video_to || !sound_to) return 4;

  check("snes_begin", snes_begin(&console, cart.at, cart.size, boot.at, boot.size, table.at, table.size, region,
                                 (uint32_t)frames, 1, &answer), answer);
  free(cart.at), free(boot.at), free(table.at);
  for (long frame = 0; frame < frames; frame++) {
    if (resets[frame]) check("snes_reset", snes_reset(&console), answer);
    if (frame == tried) try_another_way(&console, frame, frames);
    play(&console, pads[frame], video_to, sound_to);
  }
  check("snes_end", snes_end(&console), answer);
  return fclose(video_to) || fclose(sound_to) ? 4 : 0;
}
