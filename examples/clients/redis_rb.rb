# A queue of jobs with redis-rb (Debian: ruby-redis).
#
# usage: ruby redis_rb.rb PORT
#
# The server is `sr_server --listen 127.0.0.1:PORT --policy examples/policies/renderers.toml`, without a stream `jobs`.

require 'redis'

KINDS = %w[image video image image video image].freeze

def expect(found, wanted)
  raise "found #{found.inspect}, not #{wanted.inspect}" unless found == wanted
end

def connect(port)
  Redis.new(host: '127.0.0.1', port: port)
end

def produce(jobs, kinds)
  kinds.each_with_index { |kind, number| jobs.xadd('jobs', { kind: kind, file: "#{number}.raw" }) }
end

# Does the jobs that are pending for it, recovered ones among them, then new ones. Ends when that many are done.
def work(jobs, name, wanted)
  done = 0
  start = '0'
  while done < wanted
    entries = jobs.xreadgroup('render', name, 'jobs', start, count: 2, block: 5000).fetch('jobs', [])
    entries.each { |id, _| done += jobs.xack('jobs', 'render', id) }
    # its own pending entries until there are none, then new ones, and so on
    start = start == '0' && entries.empty? ? '>' : '0'
  end
  done
end

def work_while_jobs_come(port, jobs)
  worker = Thread.new { work(connect(port), 'gpu', KINDS.length) }
  sleep 0.2
  produce(jobs, KINDS)
  expect(worker.value, KINDS.length)
end

# Takes over one job of a worker that is gone.
def claim(jobs, name)
  entries = jobs.xautoclaim('jobs', 'render', name, 0, '0-0', count: 1)['entries']
  expect(entries.map { |id, _| jobs.xack('jobs', 'render', id) }, [1])
end

def inspect_jobs(jobs)
  stream = jobs.xinfo(:stream, 'jobs')
  expect(stream.values_at('length', 'groups'), [10, 1])
  expect(jobs.xinfo(:groups, 'jobs').map { |it| it.values_at('name', 'consumers', 'pending') }, [['render', 3, 3]])
  consumers = jobs.xinfo(:consumers, 'jobs', 'render')
  expect(consumers.map { |it| it.values_at('name', 'pending') }, [['cpu', 0], ['gpu', 0], ['old', 3]])
  expect(jobs.xpending('jobs', 'render')['consumers'], { 'old' => '3' })
end

def recover(jobs)
  plan = jobs.call('RECOVER.PLAN', 'jobs', 'render', 'DEAD', 'old')
  done = jobs.call('RECOVER.RUN', 'jobs', 'render', 'DEAD', 'old')
  expect([plan[0], done[0], done[2].length], ['plan', 'done', 3])
  expect(plan.drop(1), done.drop(1))
  expect(jobs.call('RECOVER.BOARD', 'jobs', 'render').start_with?('consumer '), true)
  expect(jobs.xpending('jobs', 'render', '-', '+', 10, 'old'), [])
  done[1]
end

def refused(jobs, *words)
  jobs.call(*words)
  raise "#{words} was not refused"
rescue Redis::CommandError => e
  e.message
end

def main(port)
  jobs = connect(port)
  expect(jobs.ping, 'PONG')
  jobs.xgroup(:create, 'jobs', 'render', '0', mkstream: true)
  work_while_jobs_come(port, jobs)
  puts 'a waiting worker did 6 jobs'
  produce(jobs, KINDS.first(4))
  expect(jobs.xreadgroup('render', 'old', 'jobs', '>')['jobs'].length, 4)
  claim(jobs, 'cpu')
  puts 'of 4 jobs of a worker that is gone, one was claimed'
  inspect_jobs(jobs)
  puts "the other 3 were recovered, at a cost of #{recover(jobs)}"
  expect([work(jobs, 'gpu', 3), jobs.xpending('jobs', 'render')['size']], [3, 0])
  puts 'and finished by the worker that got them'
  puts "refused: #{refused(jobs, 'XADD', 'jobs')}"
  puts "refused: #{refused(jobs, 'NOSUCH')}"
  jobs.pipelined { |pipe| 100.times { |number| pipe.xadd('jobs', { kind: 'image', file: "#{number}.raw" }) } }
  puts "the same connection went on: #{jobs.xlen('jobs')} jobs in all"
  jobs.close
end

main(Integer(ARGV.fetch(0)))
