/* A bare front end, to try a libretro core of this console without a screen:
 *
 *     front [--set OPTION=VALUE].. [--system FOLDER] [--reset FRAME] CORE CART SCRIPT FRAMES VIDEO-FILE SOUND-FILE
 *
 * It plays so many frames with the pads of a script's lines, presses reset where a line says so, and writes video and sound as
 * `snes serial` does, so that the files can be compared. With --reset it presses reset before that frame too, and the script
 * begins again with its first line. It says the core's name and rates, and each message of the core. */
#include <dlfcn.h>
#include <libretro.h>
#include <stdarg.h>
#include <stdbool.h>
#include <stdio.h>
#include <stdlib.h>
#include <string.h>

enum { DOTS = 512 * 239, MOST = 36000, OPTIONS = 8 };

static const char *options[OPTIONS];
static int option_count;
static const char *folder = ".";
static unsigned pads[MOST + 1][2], frame;
static bool resets[MOST + 1];
static FILE *video, *sound;

static bool environment(unsigned command, void *data) {
  switch (command) {
    case RETRO_ENVIRONMENT_SET_PIXEL_FORMAT: return *(enum retro_pixel_format *)data == RETRO_PIXEL_FORMAT_XRGB8888;
    case RETRO_ENVIRONMENT_GET_SYSTEM_DIRECTORY: *(const char **)data = folder; return true;
    case RETRO_ENVIRONMENT_SET_MESSAGE: printf("frame %u: %s\n", frame, ((struct retro_message *)data)->msg); return true;
    case RETRO_ENVIRONMENT_SET_SYSTEM_AV_INFO: return true;
    case RETRO_ENVIRONMENT_SET_VARIABLES: return true;
    case RETRO_ENVIRONMENT_GET_VARIABLE: {
      struct retro_variable *asked = data;
      size_t size = strlen(asked->key);
      for (int i = 0; i < option_count; i++) {
        if (!strncmp(options[i], asked->key, size) && options[i][size] == '=') {
          asked->value = options[i] + size + 1;
          return true;
        }
      }
      return false;
    }
    default: return false;
  }
}

/* Eight bits of a colour are five of them again. */
static void show(const void *data, unsigned width, unsigned height, size_t pitch) {
  static unsigned char bytes[2 * DOTS];
  if (!data || width != 512 || height != 239) exit(1);
  for (unsigned y = 0; y < height; y++) {
    const unsigned *row = (const unsigned *)((const char *)data + y * pitch);
    for (unsigned x = 0; x < width; x++) {
      unsigned dot = (row[x] >> 19 & 31) | (row[x] >> 11 & 31) << 5 | (row[x] >> 3 & 31) << 10;
      bytes[2 * (512 * y + x)] = dot & 255;
      bytes[2 * (512 * y + x) + 1] = dot >> 8;
    }
  }
  if (fwrite(bytes, 1, sizeof bytes, video) != sizeof bytes) exit(4);
}

/* Takes at most 100 samples of a call, as a front end may. */
static size_t hear(const int16_t *data, size_t count) {
  if (count > 100) count = 100;
  for (size_t at = 0; at < 2 * count; at++) putc(data[at] & 255, sound), putc(data[at] >> 8 & 255, sound);
  return count;
}

static void hear_one(int16_t left, int16_t right) {
  int16_t both[2] = {left, right};
  hear(both, 1);
}

static void poll(void) {}

static int16_t state(unsigned port, unsigned device, unsigned index, unsigned id) {
  if (port > 1 || device != RETRO_DEVICE_JOYPAD || index != 0 || id > 11) return 0;
  return pads[frame][port] >> (15 - id) & 1;
}

static void read_script(const char *name) {
  FILE *from = fopen(name, "r");
  char line[256];
  unsigned to = 0, count, one, two;
  if (!from) exit(2);
  while (fgets(line, sizeof line, from)) {
    if (!strncmp(line, "reset", 5)) resets[to] = true;
    if (sscanf(line, "%u %x %x", &count, &one, &two) != 3) continue;
    for (; count > 0 && to < MOST; count--, to++) pads[to][0] = one, pads[to][1] = two;
  }
  fclose(from);
}

/* A function of the core. */
#define CALL(name) ((__typeof__(name) *)find(core, #name))
static void *find(void *core, const char *name) {
  void *found = dlsym(core, name);
  if (found) return found;
  fprintf(stderr, "the core has no %s\n", name);
  exit(1);
}

static struct retro_game_info read_cart(const char *name) {
  struct retro_game_info game = {name, malloc(8 << 20), 0, NULL};
  FILE *from = fopen(name, "rb");
  if (!from || !game.data) exit(2);
  game.size = fread((void *)game.data, 1, 8 << 20, from);
  fclose(from);
  return game;
}

/* Gives the core what it calls. */
static void give_calls(void *core) {
  CALL(retro_set_environment)(environment);
  CALL(retro_set_video_refresh)(show);
  CALL(retro_set_audio_sample)(hear_one);
  CALL(retro_set_audio_sample_batch)(hear);
  CALL(retro_set_input_poll)(poll);
  CALL(retro_set_input_state)(state);
}

int main(int count, char **words) {
  long reset = -1;
  for (; count > 2 && !strncmp(words[1], "--", 2); count -= 2, words += 2) {
    if (!strcmp(words[1], "--set") && option_count < OPTIONS) options[option_count++] = words[2];
    else if (!strcmp(words[1], "--system")) folder = words[2];
    else if (!strcmp(words[1], "--reset")) reset = strtol(words[2], NULL, 10);
    else return 1;
  }
  if (count != 7) return 1;
  void *core = dlopen(words[1], RTLD_NOW);
  if (!core) return fprintf(stderr, "%s\n", dlerror()), 1;
  struct retro_game_info game = read_cart(words[2]);
  read_script(words[3]);
  long frames = strtol(words[4], NULL, 10);
  video = fopen(words[5], "wb"), sound = fopen(words[6], "wb");
  if (!video || !sound) return 4;

  struct retro_system_info info;
  struct retro_system_av_info rates;
  give_calls(core);
  CALL(retro_init)();
  CALL(retro_get_system_info)(&info);
  if (CALL(retro_api_version)() != RETRO_API_VERSION || CALL(retro_serialize_size)() != 0) return 1;
  if (!CALL(retro_load_game)(&game)) return 3;
  CALL(retro_get_system_av_info)(&rates);
  printf("%s %s: %.4f frames and %.0f samples a second, region %u\n", info.library_name, info.library_version,
         rates.timing.fps, rates.timing.sample_rate, CALL(retro_get_region)());
  for (long played = 0; played < frames; played++) {
    if (played == reset) CALL(retro_reset)(), frame = 0;
    if (frame < MOST && resets[frame]) CALL(retro_reset)();
    CALL(retro_run)();
    if (frame < MOST) frame++;
  }
  CALL(retro_unload_game)();
  CALL(retro_deinit)();
  return fclose(video) || fclose(sound) ? 4 : 0;
}
