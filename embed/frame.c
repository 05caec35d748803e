/* Plays a cartridge, and writes its last frame and all its sound:
 *
 *     frame CART BOOT TABLE SCRIPT FRAMES FRAME-FILE SOUND-FILE */
#include <stdio.h>
#include <stdlib.h>
#include "snes.h"

struct bytes {
  uint8_t *at;
  size_t size;
};

static struct bytes read_file(const char *name) {
  struct bytes file = {malloc(8 << 20), 0};
  FILE *from = fopen(name, "rb");
  if (!from || !file.at) exit(2);
  file.size = fread(file.at, 1, 8 << 20, from);
  fclose(from);
  return file;
}

static void write_file(const char *name, const uint8_t *at, size_t size) {
  FILE *to = fopen(name, "wb");
  if (!to || fwrite(at, 1, size, to) != size || fclose(to)) exit(4);
}

int main(int count, char **words) {
  if (count != 8) return 1;
  struct bytes cart = read_file(words[1]), boot = read_file(words[2]), table = read_file(words[3]), script = read_file(words[4]);
  uint32_t frames = strtoul(words[5], NULL, 10);
  size_t video_room = (size_t)frames * SNES_FRAME_BYTES, sound_room = (size_t)frames * SNES_FRAME_SOUND_ROOM;
  uint8_t *video = malloc(video_room + 1), *sound = malloc(sound_room + 1);
  struct snes_answer answer;
  if (!video || !sound) return 5;
  uint32_t status = snes_play(cart.at, cart.size, boot.at, boot.size, table.at, table.size, script.at, script.size, frames,
                              video, video_room, sound, sound_room, &answer);
  printf("status %u cause %u place %u video %zu sound %zu\n", status, answer.cause, answer.place, answer.video_count, answer.sound_count);
  if (status == SNES_OK && frames > 0) {
    write_file(words[6], video + answer.video_count - SNES_FRAME_BYTES, SNES_FRAME_BYTES);
    write_file(words[7], sound, answer.sound_count);
  }
  return status;
}
