// Loading: MuJoCo's own compiler reads the file. Of URDF what MuJoCo 2.2 can't read is blanked first.
#include <stdio.h>
#include <stdlib.h>
#include <string.h>

#include "plan.h"

static bool ends_with(const char* text, const char* end) {
  size_t a = strlen(text), b = strlen(end);
  return a >= b && !strcmp(text + a - b, end);
}

// The whole file with a zero byte behind it, or NULL. size: of the file.
static char* file_bytes(const char* path, size_t* size) {
  FILE* file = fopen(path, "rb");
  if (!file) return NULL;
  Text text = {0};
  char piece[4096];
  size_t taken;
  text_add(&text, "%s", "");
  while ((taken = fread(piece, 1, sizeof piece, file)) > 0) {
    for (size_t i = 0; i < taken; i++)
      if (!piece[i]) piece[i] = ' ';
    text_add(&text, "%.*s", (int)taken, piece);
  }
  bool failed = ferror(file);
  fclose(file);
  if (failed) {
    free(text.bytes);
    return NULL;
  }
  *size = text.size;
  return text.bytes;
}

static bool opens(const char* at, const char* tag) {
  size_t n = strlen(tag);
  return *at == '<' && !strncmp(at + 1, tag, n) && strchr(" \t\r\n/>", at[1 + n]) != NULL;
}

// Past the element that opens at `at`: behind its end tag, or behind "/>".
static char* past_element(char* at, const char* tag) {
  char* close = strchr(at, '>');
  if (!close) return at + strlen(at);
  if (close[-1] == '/') return close + 1;
  char end[40];
  snprintf(end, sizeof end, "</%s", tag);
  char* found = strstr(close, end);
  char* past = found ? strchr(found, '>') : NULL;
  return past ? past + 1 : at + strlen(at);
}

static void blank(char* from, const char* to) {
  for (; from < to; from++)
    if (*from != '\n') *from = ' ';
}

// The value of an attribute in the tag at `at`, in `room` of `size` bytes; empty where there is none.
static void attribute(const char* at, const char* key, char* room, size_t size) {
  room[0] = 0;
  const char* end = strchr(at, '>');
  const char* found = strstr(at, key);
  if (!end || !found || found > end) return;
  const char* open = strpbrk(found, "\"'");
  const char* close = open ? strchr(open + 1, *open) : NULL;
  if (!close || close > end) return;
  snprintf(room, size, "%.*s", (int)(close - open - 1), open + 1);
}

// Blanks a link's visuals and its collision meshes; each mesh is a finding.
static void strip_urdf(Plan* plan, char* text) {
  char link[80] = "", mesh[200];
  for (char* at = text; (at = strchr(at, '<'));) {
    if (!strncmp(at, "<!--", 4)) {
      char* end = strstr(at, "-->");
      at = end ? end + 3 : at + strlen(at);
    } else if (opens(at, "link")) {
      attribute(at, "name", link, sizeof link);
      at++;
    } else if (opens(at, "visual")) {
      char* past = past_element(at, "visual");
      blank(at, past);
      at = past;
    } else if (opens(at, "collision")) {
      char* past = past_element(at, "collision");
      char* shape = strstr(at, "<mesh");
      if (shape && shape < past) {
        attribute(shape, "filename", mesh, sizeof mesh);
        find(plan, LOST, "link", -1, link, "its collision mesh %s", mesh);
        blank(at, past);
      }
      at = past;
    } else {
      at++;
    }
  }
}

static bool is_urdf(const char* text) {
  for (const char* at = text; (at = strchr(at, '<')); at++) {
    if (!strncmp(at, "<!--", 4)) {
      at = strstr(at, "-->");
      if (!at) return false;
    } else if (at[1] != '?' && at[1] != '!') {
      return opens(at, "robot");
    }
  }
  return false;
}

static mjModel* load_text(const char* text, size_t size, char* fault, int room) {
  mjVFS* files = room_for(1, sizeof *files);
  mj_defaultVFS(files);
  mj_makeEmptyFileVFS(files, "model.urdf", (int)size);
  memcpy(files->filedata[files->nfile - 1], text, size);
  mjModel* model = mj_loadXML("model.urdf", files, fault, room);
  mj_deleteVFS(files);
  free(files);
  return model;
}

mjModel* load(Plan* plan) {
  const char* path = plan->words->file;
  char fault[1000] = "";
  size_t size = 0;
  char* text = file_bytes(path, &size);
  if (!text) {
    fprintf(stderr, "mjcf2mj: %s: can't be read\n", path);
    return NULL;
  }
  mjModel* model;
  if (ends_with(path, ".mjb")) {
    model = mj_loadModel(path, NULL);
  } else if (is_urdf(text)) {
    strip_urdf(plan, text);
    model = load_text(text, size, fault, sizeof fault);
  } else {
    model = mj_loadXML(path, NULL, fault, sizeof fault);
  }
  free(text);
  for (char* at = fault; *at; at++)
    if (*at == '\n') *at = ' ';
  if (!model)
    fprintf(stderr, "mjcf2mj: %s: MuJoCo refuses it: %s\n", path, fault[0] ? fault : "no model of its version");
  else if (fault[0])
    find(plan, NOTE, "model", -1, "", "MuJoCo says: %s", fault);
  return model;
}
