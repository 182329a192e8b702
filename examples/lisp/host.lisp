;;;; A host: its connections, where a packet goes, and turns. docs/PROTOCOL.md: "Delivery" and on.

(in-package :chaosnet)

(defstruct host
  address
  link                                  ; of udp.lisp
  (version 1)                           ; of the datagrams that it sends, 1 or 2, or :CHUDP
  (bridge nil)                          ; the address of the next hop, where all goes to one bridge
  (window 13)                           ; of each connection, both ways
  (contacts '())                        ; what it listens to
  (most-connections 16)
  (connections '())
  (last-index (first-number))           ; elsewhere at each start, too
  (outbox '()))                         ; packets that wait, the last first

(defun transmit (host packet) (push packet (host-outbox host)))

(defun chudp-p (host) (eq (host-version host) :chudp))

(defun flush (host)
  "Sends what waits. A datagram goes where the link has the host that it is for, or nowhere."
  (let ((packets (reverse (host-outbox host))))
    (setf (host-outbox host) '())
    (flet ((send (address octets) (link-send (host-link host) address octets)))
      (if (chudp-p host)
          (dolist (packet packets)
            (let ((to (pkt-to packet)))
              (send to (chudp-datagram packet (or (host-bridge host) to)))))
          (send-packets packets (host-version host) #'send)))))

(defun new-index (host)
  "An index that no connection has, and none had for long: never 0."
  (loop for index = (setf (host-last-index host) (further (host-last-index host) 1))
        unless (or (zerop index) (find index (host-connections host) :key #'conn-index))
          return index))

(defun add-connection (host peer state)
  (let* ((before (further (first-number) -1))
         (now (moment))
         (window (host-window host))
         (conn (make-connection :host host :index (new-index host) :peer peer :state state
                                :sent before :receipted before :acknowledged before
                                :window window :held (make-array window :initial-element nil)
                                :heard now :last-sent now :probed now)))
    (push conn (host-connections host))
    conn))

(defun close-connection (conn)
  "Ends a connection at once: what was sent and not receipted isn't sent again."
  (when (member (conn-state conn) '(:open :rfc-received))
    (send-packet conn +cls+ 0 (make-octets 0)))
  (let ((host (conn-host conn)))
    (setf (conn-state conn) :inactive
          (host-connections host) (remove conn (host-connections host)))))

(defun reply (host packet opcode reason &optional (index 0))
  "Answers a packet that no connection takes, from INDEX of this host."
  (transmit host (make-packet :opcode opcode :data (octets reason)
                              :to (pkt-from packet) :to-index (pkt-from-index packet)
                              :from (host-address host) :from-index index)))

(defun take-request (host packet)
  "A new request: its connection waits for the server to accept it."
  (let* ((data (text (pkt-data packet)))
         (contact (subseq data 0 (position #\Space data))))
    (cond
      ((not (member contact (host-contacts host) :test #'string=))
       (reply host packet +cls+ "No server for this contact name."))
      ((>= (length (host-connections host)) (host-most-connections host))
       (reply host packet +cls+ "Connection table full."))
      (t
       (let ((conn (add-connection host (pkt-from packet) :rfc-received)))
         (setf (conn-peer-index conn) (pkt-from-index packet)
               (conn-opening conn) (pkt-number packet)
               (conn-last-read conn) (pkt-number packet)))))))

(defun goes-to-p (packet conn)
  "Is this the connection that a packet is for? A request tells its own end alone, and an end that
asked doesn't know the index of its peer yet."
  (and (= (conn-peer conn) (pkt-from packet))
       (or (= (conn-peer-index conn) (pkt-from-index packet)) (eq (conn-state conn) :rfc-sent))
       (if (= (pkt-opcode packet) +rfc+)
           (not (conn-asked conn))
           (= (conn-index conn) (pkt-to-index packet)))))

(defun deliver (host packet)
  (let ((opcode (pkt-opcode packet))
        (conn (find packet (host-connections host) :test #'goes-to-p)))
    (cond ((/= (pkt-to packet) (host-address host)))
          ((zerop (pkt-from packet)))
          ((= opcode +rfc+) (if conn (arrive-again conn packet) (take-request host packet)))
          (conn (arrive conn packet))
          ((or (item-opcode-p opcode) (member opcode (list +opn+ +sns+ +sts+)))
           (reply host packet +los+ "No such connection." (pkt-to-index packet))))))

(defun packets-of (host octets size)
  "The packets of a datagram that came, which is of CHUDP or isn't, as the host says."
  (if (chudp-p host) (chudp-packets octets size) (datagram-packets octets size)))

(defun turn (host)
  "Sends what waits, delivers what came, for which it waits a little, and lets time pass."
  (flush host)
  (when (link-wait (host-link host) 10)
    (loop repeat 64                     ; no more, so that what is due is done under a flood, too
          do (multiple-value-bind (octets size) (link-receive (host-link host))
               (unless octets (return))
               (dolist (packet (packets-of host octets size)) (deliver host packet)))))
  (mapc #'tick (host-connections host))
  (flush host))
