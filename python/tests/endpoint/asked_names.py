"""What a manager asks a sign for beside the profile's objects, with the source of each: numbers as a person wrote them
down, from memory of the public MIBs, and not made of the table that files of objects are made of."""

DMS, GLOBAL = "1.3.6.1.4.1.1206.4.2.3", "1.3.6.1.4.1.1206.4.2.6"
_LISTED = f"""
1.3.6.1.2.1.1.1.0 sysDescr RFC 1213
1.3.6.1.2.1.1.2.0 sysObjectID RFC 1213
1.3.6.1.2.1.1.3.0 sysUpTime RFC 1213
1.3.6.1.2.1.1.4.0 sysContact RFC 1213
1.3.6.1.2.1.1.5.0 sysName RFC 1213
1.3.6.1.2.1.1.6.0 sysLocation RFC 1213
1.3.6.1.2.1.1.7.0 sysServices RFC 1213
{GLOBAL}.1.1.0 globalSetIDParameter NTCIP 1201
{GLOBAL}.1.2.0 globalMaxModules NTCIP 1201
{GLOBAL}.1.3.1.1.1 moduleNumber NTCIP 1201
{GLOBAL}.1.3.1.2.1 moduleDeviceNode NTCIP 1201
{GLOBAL}.1.3.1.3.1 moduleMake NTCIP 1201
{GLOBAL}.1.3.1.4.1 moduleModel NTCIP 1201
{GLOBAL}.1.3.1.5.1 moduleVersion NTCIP 1201
{GLOBAL}.1.3.1.6.1 moduleType NTCIP 1201
{GLOBAL}.1.4.0 controllerBaseStandards NTCIP 1201
{GLOBAL}.3.1.0 globalTime NTCIP 1201
{GLOBAL}.3.2.0 globalDaylightSaving NTCIP 1201
{DMS}.1.1.0 dmsSignAccess NTCIP 1203
{DMS}.1.2.0 dmsSignType NTCIP 1203
{DMS}.1.3.0 dmsSignHeight NTCIP 1203
{DMS}.1.4.0 dmsSignWidth NTCIP 1203
{DMS}.1.5.0 dmsHorizontalBorder NTCIP 1203
{DMS}.1.6.0 dmsVerticalBorder NTCIP 1203
{DMS}.1.7.0 dmsLegend NTCIP 1203
{DMS}.1.8.0 dmsBeaconType NTCIP 1203
{DMS}.1.9.0 dmsSignTechnology NTCIP 1203
{DMS}.2.1.0 vmsCharacterHeightPixels NTCIP 1203
{DMS}.2.2.0 vmsCharacterWidthPixels NTCIP 1203
{DMS}.2.5.0 vmsHorizontalPitch NTCIP 1203
{DMS}.2.6.0 vmsVerticalPitch NTCIP 1203
{DMS}.2.7.0 monochromeColor NTCIP 1203
{DMS}.3.1.0 numFonts NTCIP 1203
{DMS}.3.2.1.1.1 fontIndex NTCIP 1203
{DMS}.3.2.1.2.1 fontNumber NTCIP 1203
{DMS}.3.2.1.3.1 fontName NTCIP 1203
{DMS}.3.2.1.4.1 fontHeight NTCIP 1203
{DMS}.3.2.1.5.1 fontCharSpacing NTCIP 1203
{DMS}.3.2.1.6.1 fontLineSpacing NTCIP 1203
{DMS}.3.2.1.7.1 fontVersionID NTCIP 1203
{DMS}.3.2.1.8.1 fontStatus NTCIP 1203
{DMS}.3.3.0 maxFontCharacters NTCIP 1203
{DMS}.3.4.1.1.1.65 characterNumber NTCIP 1203
{DMS}.3.4.1.2.1.65 characterWidth NTCIP 1203
{DMS}.3.4.1.3.1.65 characterBitmap NTCIP 1203
{DMS}.3.5.0 fontMaxCharacterSize NTCIP 1203
{DMS}.4.10.0 defaultCharacterSet NTCIP 1203
{DMS}.4.14.0 dmsSupportedMultiTags NTCIP 1203
{DMS}.4.15.0 dmsMaxNumberPages NTCIP 1203
{DMS}.4.16.0 dmsMaxMultiStringLength NTCIP 1203
{DMS}.6.1.0 dmsControlMode NTCIP 1203
{DMS}.6.2.0 dmsSWReset NTCIP 1203
{DMS}.6.11.0 dmsResetMessage NTCIP 1203
{DMS}.6.16.0 dmsMemoryMgmt NTCIP 1203
{DMS}.6.25.0 dmsActivateMessageState NTCIP 1203
{DMS}.7.1.0 dmsIllumControl NTCIP 1203
{DMS}.7.2.0 dmsIllumMaxPhotocellLevel NTCIP 1203
{DMS}.7.3.0 dmsIllumPhotocellLevelStatus NTCIP 1203
{DMS}.7.4.0 dmsIllumNumBrightLevels NTCIP 1203
{DMS}.7.5.0 dmsIllumBrightLevelStatus NTCIP 1203
{DMS}.7.6.0 dmsIllumManLevel NTCIP 1203
{DMS}.7.7.0 dmsIllumBrightnessValues NTCIP 1203
{DMS}.7.8.0 dmsIllumBrightnessValuesError NTCIP 1203
{DMS}.7.9.0 dmsIllumLightOutputStatus NTCIP 1203
{DMS}.8.1.0 numActionTableEntries NTCIP 1203
{DMS}.9.5.0 watchdogFailureCount NTCIP 1203
{DMS}.9.6.0 dmsStatDoorOpen NTCIP 1203
{DMS}.9.7.1.0 shortErrorStatus NTCIP 1203
{DMS}.9.7.2.0 pixelFailureTableNumRows NTCIP 1203
{DMS}.9.9.1.0 tempMinCtrlCabinet NTCIP 1203
{DMS}.9.9.2.0 tempMaxCtrlCabinet NTCIP 1203
{DMS}.9.9.3.0 tempMinAmbient NTCIP 1203
{DMS}.9.9.4.0 tempMaxAmbient NTCIP 1203
{DMS}.9.9.5.0 tempMinSignHousing NTCIP 1203
{DMS}.9.9.6.0 tempMaxSignHousing NTCIP 1203
{DMS}.10.1.0 dmsGraphicMaxEntries NTCIP 1203
"""
ASKED = [
    (number, name, source) for number, name, source in (line.split(" ", 2) for line in _LISTED.split("\n") if line)
]
EIGHT = (  # a manager's start in one Get
    "sysDescr.0",
    "dmsSignType.0",
    "vmsCharacterHeightPixels.0",
    "vmsSignHeightPixels.0",
    "vmsSignWidthPixels.0",
    "dmsSupportedMultiTags.0",
    "shortErrorStatus.0",
    "dmsControlMode.0",
)
