/* scalable WIDTH HEIGHT < FRAMES > CLIP: encodes pictures, planar 4:2:0 of 8 bits one after the other, as a scalable clip by OpenH264 (Debian package
 * libopenh264-dev): two spatial layers, the base of half the size, and two temporal ones. A prefix unit (type 14) stands before each slice of the base, and the other
 * layer's slices are units of type 20. make.py compiles and runs it. */
#include <stdio.h>
#include <stdlib.h>
#include <string.h>
#include <wels/codec_api.h>

#define LAYERS 2

static void fail(const char *what)
{
  fprintf(stderr, "scalable: %s\n", what);
  exit(1);
}

static void set(SEncParamExt *p, int width, int height)
{
  p->iUsageType = CAMERA_VIDEO_REAL_TIME;
  p->iPicWidth = width;
  p->iPicHeight = height;
  p->fMaxFrameRate = 25;
  p->iTargetBitrate = 200000;
  p->iRCMode = RC_OFF_MODE;
  p->iMultipleThreadIdc = 1;
  p->uiIntraPeriod = 8;
  p->iTemporalLayerNum = 2;
  p->iSpatialLayerNum = LAYERS;
  p->bSimulcastAVC = false;
  p->bPrefixNalAddingCtrl = true;
  p->eSpsPpsIdStrategy = CONSTANT_ID;
  p->bEnableFrameSkip = false;
  p->bEnableLongTermReference = true;
  for (int i = 0; i < LAYERS; i++) {
    SSpatialLayerConfig *l = &p->sSpatialLayers[i];
    l->iVideoWidth = width >> (LAYERS - 1 - i);
    l->iVideoHeight = height >> (LAYERS - 1 - i);
    l->fFrameRate = 25;
    l->iSpatialBitrate = 100000;
    l->iMaxSpatialBitrate = UNSPECIFIED_BIT_RATE;
    l->uiProfileIdc = i ? PRO_SCALABLE_BASELINE : PRO_BASELINE;
    l->uiLevelIdc = LEVEL_UNKNOWN;
    l->iDLayerQp = 30;
    l->sSliceArgument.uiSliceMode = SM_SINGLE_SLICE;
  }
}

static void put(const SFrameBSInfo *out)
{
  for (int i = 0; i < out->iLayerNum; i++) {
    const SLayerBSInfo *l = &out->sLayerInfo[i];
    size_t bytes = 0;
    for (int j = 0; j < l->iNalCount; j++)
      bytes += l->pNalLengthInByte[j];
    if (fwrite(l->pBsBuf, 1, bytes, stdout) != bytes)
      fail("the clip cannot be written");
  }
}

int main(int count, char **words)
{
  if (count != 3)
    fail("two numbers are needed, width and height");
  int width = atoi(words[1]), height = atoi(words[2]), luma = width * height;
  ISVCEncoder *e = NULL;
  SEncParamExt p;
  if (WelsCreateSVCEncoder(&e) || !e || (*e)->GetDefaultParams(e, &p))
    fail("there is no encoder");
  set(&p, width, height);
  if ((*e)->InitializeExt(e, &p))
    fail("the encoder does not take these words");
  int format = videoFormatI420, quiet = WELS_LOG_QUIET;
  (*e)->SetOption(e, ENCODER_OPTION_TRACE_LEVEL, &quiet);
  (*e)->SetOption(e, ENCODER_OPTION_DATAFORMAT, &format);
  unsigned char *picture = malloc(luma * 3 / 2);
  for (int n = 0; fread(picture, 1, luma * 3 / 2, stdin) == (size_t)(luma * 3 / 2); n++) {
    SSourcePicture in;
    SFrameBSInfo out;
    memset(&in, 0, sizeof in);
    memset(&out, 0, sizeof out);
    in.iColorFormat = videoFormatI420;
    in.iPicWidth = width;
    in.iPicHeight = height;
    in.iStride[0] = width;
    in.iStride[1] = in.iStride[2] = width / 2;
    in.pData[0] = picture;
    in.pData[1] = picture + luma;
    in.pData[2] = picture + luma * 5 / 4;
    in.uiTimeStamp = n * 40;
    if ((*e)->EncodeFrame(e, &in, &out))
      fail("a picture is not encoded");
    if (out.eFrameType != videoFrameTypeSkip)
      put(&out);
  }
  (*e)->Uninitialize(e);
  WelsDestroySVCEncoder(e);
  free(picture);
  return 0;
}
