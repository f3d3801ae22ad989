# Writes a ruler of the stems under a chart: ext sphere 17 30 --stems | awk -f ruler.awk
# The upper line has the tens at each tenth stem, the lower one the last digit.
{ print }
/^stems / {
    split($2, ends, /\.\./)
    for (stem = ends[1] + 0; stem <= ends[2] + 0; stem++) {
        n = stem < 0 ? -stem : stem
        tens = tens (n % 10 ? " " : int(n / 10) % 10)
        units = units (n % 10)
    }
    sub(/ +$/, "", tens)
    print "   |" tens
    print "   |" units
}
