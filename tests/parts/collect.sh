# What tools/collect.sh asks of a cluster, copies and refuses, with stand-ins of Kafka's tools.
. tests/common.sh
counted 'collecting' python3 -B tests/collect.py "$program"
end
