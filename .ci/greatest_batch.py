#!/usr/bin/env python3
# Makes the case greatest-batch: a batch of 1,000 records, of all kinds, under commitments, with texts that CSV or JSON has
# to quote, and amended in the batch itself, and what its file must be, by docs/formats.md alone. The gate doesn't run it, but
# .ci/texts takes the names of the columns from here. Run it in the folder of the case: it writes stdin and stdout.
import json
import random

HEAD = ('BilledCost BillingAccountId BillingAccountName BillingCurrency BillingPeriodEnd BillingPeriodStart ChargeCategory '
        'ChargeClass ChargeDescription ChargeFrequency ChargePeriodEnd ChargePeriodStart CommitmentDiscountCategory '
        'CommitmentDiscountId CommitmentDiscountStatus CommitmentDiscountType ConsumedQuantity ConsumedUnit ContractedCost '
        'ContractedUnitPrice EffectiveCost InvoiceIssuerName ListCost ListUnitPrice PricingCategory PricingQuantity '
        'PricingUnit ProviderName PublisherName RegionId RegionName ResourceId ServiceCategory ServiceName SkuId SkuPriceId '
        'SubAccountId Tags').split()

# sku, price_id, from, description, service, category, consumed_unit, pricing_unit, per, list, contracted
PRICES = [
    ('c', 'c-od', '2025-01-01', 'CPU, "virtual"', 'Compute', 'Compute', 'Seconds', 'Hours', 3600, '0.1', '0.08'),
    ('c', 'c-15', '2025-01-15', 'CPU, later', 'Compute', 'Compute', 'Seconds', 'Hours', 3600, '0.123457', '0.099999'),
    ('o', 'o-od', '2025-01-01', 'Requests', 'Storage', 'Storage', 'Requests', 'Pairs', 2, '1', '0.999999'),
    ('p', 'p-1', '2025-01-01', 'Plan', 'Compute', 'Compute', 'Plans', 'Plans', 1, '50', '40'),
    ('d', 'd-1', '2024-12-31', 'Days, née jours', 'Données', 'Databases', 'Hours', 'Days', 7, '999999.999999', '0'),
]
# id, sku, buy, category, type, rate
COMMITMENTS = [
    ('k1', 'c', 'p', 'Usage', 'Reserved', '0.05'),
    ('k"2', 'o', 'p', 'Spend', 'Savings, all', '0.333333'),
]
ISSUER = [('provider', 'Cloud "One"'), ('publisher', 'Publisher, Inc'), ('issuer', 'Issuer Ltd'), ('account_id', 'A-1'),
          ('account_name', 'Payer'), ('currency', 'EUR'), ('other_service', 'Billing, other')]
JANUARY = '2025-01-01T00:00:00Z', '2025-02-01T00:00:00Z'


def toml(text):
    return '"' + text.replace('\\', '\\\\').replace('"', '\\"') + '"'


def sheet_lines():
    lines = ['base = "2025-01"']
    keys = 'sku price_id from description service category consumed_unit pricing_unit per list contracted'.split()
    for price in PRICES:
        lines.append('[[price]]')
        lines += [f'{k} = {v if k == "per" else toml(v)}' for k, v in zip(keys, price)]
    for commitment in COMMITMENTS:
        lines.append('[[commitment]]')
        lines += [f'{k} = {toml(v)}' for k, v in zip('id sku buy category type rate'.split(), commitment)]
    return lines


def millionths(text):
    minus, text = text.startswith('-'), text.lstrip('-')
    whole, _, decimals = text.partition('.')
    number = int(whole) * 10**6 + int(decimals.ljust(6, '0'))
    return -number if minus else number


def spelled(number, places):
    whole, decimals = divmod(abs(number), 10**places)
    text = str(whole)
    if decimals:
        text += '.' + str(decimals).rjust(places, '0').rstrip('0')
    return '-' + text if number < 0 else text


def half_to_even(number, per):
    low, rest = divmod(number, per)
    return low + (1 if 2 * rest > per or (2 * rest == per and low % 2 == 1) else 0)


def price_on(prices, sku, day):
    rows = [p for p in prices if p[0] == sku and p[2] <= day]
    return max(rows, key=lambda p: p[2], default=None)


# Of a reading whose value goes from one to another, in a period with these bounds. The names of regions are by their ids.
def row(reading, was, now, bounds, prices, commitments, issuer, regions):
    kind, start, end, account, resource, key, _, commitment, tags = reading[:9]
    region = ''.join(reading[9:])
    c = dict.fromkeys(HEAD, '')
    c.update(BillingAccountId=issuer['account_id'], BillingAccountName=issuer['account_name'],
             BillingCurrency=issuer['currency'], BillingPeriodStart=bounds[0],
             BillingPeriodEnd=bounds[1], ChargePeriodStart=start, ChargePeriodEnd=end,
             InvoiceIssuerName=issuer['issuer'], ProviderName=issuer['provider'], PublisherName=issuer['publisher'],
             RegionId=region, RegionName=regions.get(region, region), ResourceId=resource, SubAccountId=account)
    c['ChargeCategory'] = dict(U='Usage', P='Purchase', C='Credit', T='Tax', A='Adjustment')[kind]
    c['ChargeFrequency'] = 'Usage-Based' if kind == 'U' else 'One-Time'
    pairs = [p.split('=', 1) for p in tags.split(';')] if tags else []
    c['Tags'] = json.dumps(dict(pairs), separators=(',', ':'), ensure_ascii=False)
    if kind in 'CTA':
        for cost in 'BilledCost ContractedCost EffectiveCost ListCost'.split():
            c[cost] = spelled(now - was, 6)
        c.update(ChargeDescription=key, ServiceCategory='Other', ServiceName=issuer['other_service'])
        return c
    sku, price_id, _, description, service, category, consumed_unit, pricing_unit, per, listed, contracted = \
        price_on(prices, key, start[:10])
    quantity = half_to_even(now, per) - half_to_even(was, per)
    of_list, of_contract = millionths(listed) * quantity, millionths(contracted) * quantity
    billed = effective = of_contract
    bought = [k for k in commitments if k[0] == commitment]
    if bought:
        identity, _, _, discount, sort, rate = bought[0]
        c.update(CommitmentDiscountCategory=discount, CommitmentDiscountId=identity, CommitmentDiscountType=sort)
        effective = 0
        if kind == 'U':
            billed, effective = 0, millionths(rate) * quantity
            c['CommitmentDiscountStatus'] = 'Used'
    c['PricingCategory'] = 'Committed' if bought and kind == 'U' else 'Standard'
    c.update(BilledCost=spelled(billed, 12), ContractedCost=spelled(of_contract, 12),
             EffectiveCost=spelled(effective, 12), ListCost=spelled(of_list, 12), ChargeDescription=description,
             ContractedUnitPrice=contracted, ListUnitPrice=listed, PricingQuantity=spelled(quantity, 6),
             PricingUnit=pricing_unit, ServiceCategory=category, ServiceName=service, SkuId=sku, SkuPriceId=price_id)
    if kind == 'U':
        c.update(ConsumedQuantity=spelled(now - was, 6), ConsumedUnit=consumed_unit)
    return c


def field(text):
    return '"' + text.replace('"', '""') + '"' if any(x in text for x in ',"\r\n') else text


def some_value(rng, least):
    wide = rng.choice([10, 10**4, 10**8, 10**10, 10**12])
    return spelled(rng.randint(-wide if least < 0 else 0, wide), 6)


def records(rng):
    accounts = ['', 'a', 'a7', 'b,1', 'q"']
    resources = ['', 'v', 'v-1', 'r,', '\\']
    tags = ['', 'e=p', 'a=,', 'a="', 'a=\\;b=', 'k=v=w', '"=1;a b=c', 'a=/;z={}', "'=\x7e"]
    made = []
    for i in range(1000):
        readings = [j for j, r in enumerate(made) if r[0] != 'X']
        if i > 2 and rng.random() < 0.17:
            j = rng.choice(readings)
            made.append(('X', '1', str(j), some_value(rng, 0 if made[j][0] in 'UP' else -1)))
            continue
        kind = rng.choice('UUUUUUUPCTA')
        day = rng.randint(1, 31)
        start = f'2025-01-{day:02}T{rng.randint(0, 23):02}:{rng.randint(0, 59):02}:{rng.randint(0, 59):02}Z'
        end = rng.choice(['2025-02-01T00:00:00Z', '2028-02-29T23:59:59Z'])
        key = commitment = ''
        if kind == 'U':
            key = rng.choice('ccood')
            commitment = rng.choice(['', {'c': 'k1', 'o': 'k"2', 'd': ''}[key]])
        elif kind == 'P':
            key = rng.choice('pppcd')
            commitment = rng.choice(['', 'k1', 'k"2']) if key == 'p' else ''
        else:
            key = rng.choice(['Tax', 'Gift, "x"', '"', 'VAT 7 %'])
        made.append((kind, start, end, rng.choice(accounts), rng.choice(resources), key,
                     some_value(rng, 0 if kind in 'UP' else -1), commitment, rng.choice(tags)))
    return made


def main():
    made = records(random.Random(15))
    batch = ''.join('|'.join(line) + '\n' for line in [('B1', '64', '1', '1000')] + made)
    assert len(batch.encode()) <= 65536, len(batch)
    sheet = sheet_lines()
    with open('stdin', 'w', newline='') as out:
        out.write(f'sheet {len(sheet)}\n' + ''.join(line + '\n' for line in sheet))
        out.write(f'issuer {len(ISSUER)}\n' + ''.join(f'{k} = {toml(v)}\n' for k, v in ISSUER))
        out.write(batch)
    values = {}
    for index, record in enumerate(made):
        if record[0] == 'X':
            values[int(record[2])] = millionths(record[3])
        else:
            values[index] = millionths(record[6])
    with open('stdout', 'w', newline='') as out:
        out.write(','.join(HEAD) + '\n')
        for index, record in enumerate(made):
            if record[0] != 'X':
                c = row(record, 0, values[index], JANUARY, PRICES, COMMITMENTS, dict(ISSUER), {})
                out.write(','.join(field(c[name]) for name in HEAD) + '\n')


if __name__ == '__main__':
    main()
