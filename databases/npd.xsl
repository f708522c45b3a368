<?xml version="1.0"?>
<!-- Shows PDML as one page: packets as rows that open, their protocols, blocks and fields with bytes, notes marked.
     xsltproc databases/npd.xsl packets.pdml > packets.html -->
<xsl:stylesheet version="1.0" xmlns:xsl="http://www.w3.org/1999/XSL/Transform">
<xsl:output method="html" encoding="UTF-8" doctype-system="about:legacy-compat"/>

<xsl:template match="/pdml">
<html>
<head>
<meta name="viewport" content="width=device-width, initial-scale=1"/>
<title>Packets</title>
<style>
body { font: 14px/1.45 system-ui, sans-serif; margin: 0 auto; max-width: 1200px; padding: 1rem; color: #1c2430; background: #fff; }
h1 { font-size: 1.2rem; margin: 0 0 .75rem; }
details { border-left: 2px solid transparent; }
summary { cursor: pointer; padding: .15rem .4rem; border-radius: 3px; }
summary:hover { background: #eef3fb; }
.packet { border-bottom: 1px solid #e3e7ee; }
.packet > summary { display: grid; grid-template-columns: 4rem 13rem 6rem 1fr; gap: .5rem; font-variant-numeric: tabular-nums; }
.packet[open] > summary { background: #dfe9f8; }
.proto { margin-left: 1.2rem; }
.proto > summary { font-weight: 600; background: #f3f5f8; margin: .1rem 0; }
.block { margin-left: 1.2rem; border-left-color: #d5dbe5; }
.field { display: grid; grid-template-columns: 16rem 5.5rem 1fr; gap: .6rem; margin-left: 1.6rem; padding: .05rem 0; }
.place { color: #6a7484; font-variant-numeric: tabular-nums; font-weight: normal; }
.bytes { color: #6a7484; font-family: ui-monospace, monospace; font-size: 12px; overflow-wrap: anywhere; }
.shown { font-family: ui-monospace, monospace; overflow-wrap: anywhere; }
.note { margin-left: 1.6rem; color: #8a1c1c; font-weight: 600; }
.mark { color: #8a1c1c; font-weight: 600; }
.path { color: #34404f; }
@media (prefers-color-scheme: dark) {
  body { color: #d9dee7; background: #15191f; }
  summary:hover { background: #222a36; } .packet { border-color: #2a313c; } .packet[open] > summary { background: #24344d; }
  .proto > summary { background: #1d232c; } .block { border-left-color: #39424f; }
  .place, .bytes { color: #95a0b1; } .note, .mark { color: #ff9a8f; } .path { color: #b9c2cf; }
}
</style>
</head>
<body>
<h1><xsl:value-of select="count(packet)"/> packets<xsl:if test="//note">, <span class="mark"><xsl:value-of select="count(packet[.//note])"/> with a note</span></xsl:if></h1>
<xsl:apply-templates select="packet"/>
</body>
</html>
</xsl:template>

<xsl:template match="packet">
<details class="packet">
<summary>
<span><xsl:value-of select="@number"/></span>
<span><xsl:value-of select="@timestamp"/></span>
<span><xsl:value-of select="@caplen"/><xsl:if test="@caplen != @length"> of <xsl:value-of select="@length"/></xsl:if></span>
<span class="path">
<xsl:for-each select="proto[@name != 'startproto']"><xsl:if test="position() != 1"> &#8250; </xsl:if><xsl:value-of select="@name"/></xsl:for-each>
<xsl:for-each select=".//note"><span class="mark"> &#9888; <xsl:value-of select="@reason"/></span></xsl:for-each>
</span>
</summary>
<xsl:apply-templates select="proto[@name != 'startproto' or *]"/>
</details>
</xsl:template>

<xsl:template match="proto">
<details class="proto" open="open">
<summary><xsl:call-template name="title"/><xsl:text> </xsl:text><xsl:call-template name="place"/></summary>
<xsl:apply-templates/>
</details>
</xsl:template>

<xsl:template match="block">
<details class="block" open="open">
<summary><xsl:call-template name="title"/><xsl:text> </xsl:text><xsl:call-template name="place"/></summary>
<xsl:apply-templates/>
</details>
</xsl:template>

<xsl:template match="field">
<div class="field">
<span><xsl:call-template name="title"/></span>
<xsl:call-template name="place"/>
<span>
<span class="shown"><xsl:value-of select="@show"/></span>
<xsl:if test="@show != @value"><xsl:text> </xsl:text><span class="bytes"><xsl:value-of select="substring(@value, 1, 128)"/><xsl:if test="string-length(@value) &gt; 128">&#8230;</xsl:if></span></xsl:if>
</span>
</div>
</xsl:template>

<xsl:template match="note">
<div class="note">&#9888; <xsl:value-of select="@reason"/> at byte <xsl:value-of select="@pos"/></div>
</xsl:template>

<!-- what something is called: its long name where it has one -->
<xsl:template name="title">
<xsl:choose>
<xsl:when test="@longname"><span title="{@name}"><xsl:value-of select="@longname"/></span></xsl:when>
<xsl:otherwise><xsl:value-of select="@name"/></xsl:otherwise>
</xsl:choose>
</xsl:template>

<!-- where it stands: the first byte and how many -->
<xsl:template name="place">
<span class="place"><xsl:value-of select="@pos"/>+<xsl:value-of select="@size"/></span>
</xsl:template>
</xsl:stylesheet>
