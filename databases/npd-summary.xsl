<?xml version="1.0"?>
<!-- Shows PSML as a table, a packet a row.
     xsltproc databases/npd-summary.xsl packets.psml > packets.html -->
<xsl:stylesheet version="1.0" xmlns:xsl="http://www.w3.org/1999/XSL/Transform">
<xsl:output method="html" encoding="UTF-8" doctype-system="about:legacy-compat"/>

<xsl:template match="/psml">
<html>
<head>
<meta name="viewport" content="width=device-width, initial-scale=1"/>
<title>Packets</title>
<style>
body { font: 14px/1.4 system-ui, sans-serif; margin: 0; padding: 1rem; color: #1c2430; background: #fff; }
table { border-collapse: collapse; width: 100%; font-variant-numeric: tabular-nums; }
th { position: sticky; top: 0; text-align: left; background: #f3f5f8; }
th, td { padding: .2rem .6rem; border-bottom: 1px solid #e3e7ee; overflow-wrap: anywhere; }
tbody tr:hover { background: #eef3fb; }
@media (prefers-color-scheme: dark) {
  body { color: #d9dee7; background: #15191f; } th { background: #1d232c; } th, td { border-color: #2a313c; }
  tbody tr:hover { background: #222a36; }
}
</style>
</head>
<body>
<table>
<thead><tr><xsl:for-each select="structure/section"><th><xsl:value-of select="."/></th></xsl:for-each></tr></thead>
<tbody><xsl:apply-templates select="packet"/></tbody>
</table>
</body>
</html>
</xsl:template>

<xsl:template match="packet">
<tr><xsl:for-each select="section"><td><xsl:value-of select="."/></td></xsl:for-each></tr>
</xsl:template>
</xsl:stylesheet>
